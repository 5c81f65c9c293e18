# The file hosts has a machine on each line, as ssh(1) names it, with watchtree, inotifywait and rsync(1). A machine
# gets the next shard when it is done with one. The status is that of the merge.
shards=${shards:-8}
seq "$shards" | parallel --sshloginfile hosts --jobs 1 --workdir "${folder:-/var/tmp/explore}" \
    --basefile script --basefile search.sh --return "script.shard-{}-of-$shards" \
    sh search.sh --shard "{}/$shards"
sh search.sh --report junit=report.xml --merge script.shard-*-of-"$shards"
