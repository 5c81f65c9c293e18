#!/bin/sh
#SBATCH --cpus-per-task=2
sh search.sh --jobs "$SLURM_CPUS_PER_TASK" --report junit=report.xml --merge script.shard-*-of-8
