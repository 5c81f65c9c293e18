#!/bin/sh
#SBATCH --array=1-8
#SBATCH --cpus-per-task=2
#SBATCH --time=60
# Status 1 says that schedules fail, which is no failure of the job.
sh search.sh --jobs "$SLURM_CPUS_PER_TASK" --minutes 50 --shard "$SLURM_ARRAY_TASK_ID/8" "$@" || [ $? = 1 ]
