#!/usr/bin/env bash
#SBATCH --job-name=night
#SBATCH --array=1-200%16
#SBATCH --output=night_%a.log
#SBATCH --requeue
# A night as a Slurm job array: `COV_SERVER=host:7000 sbatch hooks/farm/array.sbatch [COMMAND ..]`, COMMAND as in one_seed.py.
# The seed is the task's number; --array says which seeds and how many at a time. A task that the scheduler starts again
# uploads the same record, which is counted once. HOOKS is where hooks/farm stands, as Slurm runs a copy of this file.
set -euo pipefail
farm=${HOOKS:-$SLURM_SUBMIT_DIR/hooks/farm}
test "$#" -gt 0 || set -- python3 "$farm/fifo_test.py" '{seed}' '{test}' '{record}'
exec python3 "$farm/one_seed.py" --folder "${COV_FOLDER:-records}" "$SLURM_ARRAY_TASK_ID" -- "$@"
