#!/bin/sh
# The join of one part, for a Slurm array over the parts that photon-split has made; see docs/SCALE.md. All parts:
#
#     sbatch --array=0-15 slurm.sh /shared/many [OPTION ..]
#
# and the parts 3 and 7 again: sbatch --array=3,7 slurm.sh /shared/many [OPTION ..]
#
#SBATCH --job-name=photon
#SBATCH --cpus-per-task=2
#SBATCH --mem=4G
#SBATCH --no-requeue
#SBATCH --output=photon.%A.%a.log
set -eu
parts=$1
shift
exec photon-part "$parts/$SLURM_ARRAY_TASK_ID" "$@"
