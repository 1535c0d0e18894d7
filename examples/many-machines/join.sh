#!/bin/sh
# Joins the images of slices to one (docs/use/many-machines.md): join.sh LWBENCH OUT FOLDER
# FOLDER has what slice.sbatch left there, A-B.image for devices A to B each. Status: that of `lwbench join`.
set -eu
if [ $# -ne 3 ]; then
    echo 'usage: join.sh LWBENCH OUT FOLDER' >&2
    exit 2
fi
program=$1
out=$2
folder=$3
set --
for image in "$folder"/*-*.image; do
    set -- "$@" "$(basename -- "$image" .image)=$image"
done
exec "$program" join "$out" "$@"
