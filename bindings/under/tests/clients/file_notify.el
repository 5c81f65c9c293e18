;; Prints the events that Emacs's file-notify reports for a directory.
(require 'filenotify)
(file-notify-add-watch (car command-line-args-left) '(change attribute-change)
                       (lambda (event) (princ (format "%S\n" (cdr event))) (send-string-to-terminal "")))
(while t (read-event nil nil 60))
