#!/bin/sh
#SBATCH --job-name=lwbench
#SBATCH --ntasks=1
# One slice of a scenario, as a task of a Slurm job array (docs/use/many-machines.md):
#   sbatch --array=0-3 slice.sbatch LWBENCH SCENARIO DEVICES PORT ADDRESS SECONDS FOLDER
# Of DEVICES devices each task has an equal part, one after another. Device d of the scenario is at port PORT + d of
# ADDRESS on the machine of its task; 0.0.0.0 is all addresses of it. What happened in SECONDS seconds goes to
# FOLDER/A-B.image, where A and B are the first and the last device of the task; FOLDER is one that all machines see.
set -eu
if [ $# -ne 7 ]; then
    echo 'usage: sbatch --array=0-N slice.sbatch LWBENCH SCENARIO DEVICES PORT ADDRESS SECONDS FOLDER' >&2
    exit 2
fi
place=$((SLURM_ARRAY_TASK_ID - SLURM_ARRAY_TASK_MIN))
first=$(($3 * place / SLURM_ARRAY_TASK_COUNT))
last=$(($3 * (place + 1) / SLURM_ARRAY_TASK_COUNT - 1))
# Each device needs a file.
ulimit -n "$(ulimit -H -n)"
exec "$1" fleet "$2" "$(($4 + first))" --devices "$first-$last" --bind "$5" --seconds "$6" \
    --save "$7/$first-$last.image"
