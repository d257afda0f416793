#!/bin/sh
# A job array of Slurm, each of whose tasks draws a piece of a path.
#
#     sbatch --array=1-N slurm.sh FOLDER SCENE.obj WORDS..
#
# is started where draw_piece.sh would be, in a folder that all machines share, such as that of the scene. FOLDER has the pieces
# that cut.py made, N of them. MANY is the folder of these scripts, and ABUF the program; sbatch hands both on. A task uses as many
# threads as it is given processors. What it says stands in FOLDER/NUMBER.log, and its status is that of abuf.
#SBATCH --job-name=abuf
#SBATCH --cpus-per-task=2
#SBATCH --output=/dev/null
set -u
folder=$1
scene=$2
shift 2
number=$(printf %04d "$SLURM_ARRAY_TASK_ID")
exec "${MANY:?}/draw_piece.sh" "$folder/$number.path" "$scene" "$@" --threads "${SLURM_CPUS_PER_TASK:-1}" 2>"$folder/$number.log"
