# One search. A shard of it, the merge, and the search in one go differ only in the options that are added.
exec watchtree explore script --seeds 1..200 --check 'grep -q "/wt/d/a/ CREATE f" "$WT_OUT/stdout"' "$@" \
    -- inotifywait -q -m -r -e create /wt/d
