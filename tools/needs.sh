#!/bin/sh
# needs.sh TOOL..: a line for each of these tools that is not installed, with where it comes from; fails where
# there is one.
status=0
for tool; do
    command -v "$tool" >/dev/null && continue
    case $tool in
    rt) source='the Rattle toolchain; rt is in its folder bin' ;;
    cc | gcc) source='Debian: apt-get install gcc' ;;
    *) source="Debian: apt-get install $tool" ;;
    esac
    echo "needs $tool, which is not installed ($source)" >&2
    status=1
done
exit "$status"
