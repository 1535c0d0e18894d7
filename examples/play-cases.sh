#!/bin/sh
# Plays files of cases in a job of continuous integration, and keeps the reports (docs/use/ci.md).
#   play-cases.sh LWBENCH FOLDER FILE ..
# LWBENCH is the program, and each FILE has cases. In the folder FOLDER, which is made if it is not there, are then
# cases.xml, a report in the XML of JUnit, and cases.tap, which is printed too. Status: that of `lwbench test`, which is
# 0 where each case passes, and 3 where one differs; 2 for other words than these.
if [ $# -lt 3 ]; then
    echo 'usage: play-cases.sh LWBENCH FOLDER FILE ..' >&2
    exit 2
fi
program=$1
folder=$2
shift 2
mkdir -p -- "$folder" && rm -f -- "$folder/cases.xml" "$folder/cases.tap" || exit 1
"$program" test "$@" --tap --junit "$folder/cases.xml" >"$folder/cases.tap"
status=$?
cat -- "$folder/cases.tap"
exit "$status"
