(* Prints the events that OCaml's inotify reports for a directory. *)
let () =
  let instance = Inotify.create () in
  ignore (Inotify.add_watch instance Sys.argv.(1) [Inotify.S_All]);
  while true do
    List.iter (fun event -> print_endline (Inotify.string_of_event event)) (Inotify.read instance)
  done
