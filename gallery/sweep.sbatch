#!/bin/sh
#SBATCH --job-name=sweep
#SBATCH --cpus-per-task=1
# A sweep as an array job of Slurm; from the repository's folder, which all nodes see under one path:
#
#     tasks=$(gallery/sweep gallery/arrays gallery/loops --chunk 4 --count)
#     sbatch --array=0-$((tasks - 1)) gallery/sweep.sbatch gallery/arrays gallery/loops --chunk 4
#     gallery/sweep gallery/arrays gallery/loops --collect
#
# --count also builds the program. The last line, when the tasks have ended, writes the tables.
exec gallery/sweep "$@" --task "${SLURM_ARRAY_TASK_ID:?is not set: this file is for sbatch --array}"
