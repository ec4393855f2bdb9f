#!/bin/sh
# Starts, stops or checks a service that has one process, whose number stands in a file.
set -u

action=${1:-status} name=${2:-web}
pid_file=/run/$name.pid

if [ "$action" = status ]; then
    if [ -s "$pid_file" ] && kill -0 "`cat "$pid_file"`"; then
        echo "$name is running"
    else
        echo "$name is stopped"
        exit 3
    fi
elif [ "$action" = start ]; then
    [ -s "$pid_file" ] && { echo "$name has been started already"; exit 1; }

    # The daemon goes on in the background, and writes the file itself.
    (cd "/srv/$name" && exec "./$name" --pid-file "$pid_file") &
    until [ -s "$pid_file" ]; do
        sleep 1
    done
elif [ "$action" = stop ]; then
    tries=10
    kill "`cat "$pid_file"`" || exit 1
    while [ -e "$pid_file" ] && [ "$tries" -gt 0 ]; do
        sleep 1
        tries=$((tries - 1)) # a second each
    done
    ! [ -e "$pid_file" ] || {
        echo "$name does not stop" |
            logger -t "$name" # for whoever is on call
        exit 1
    }
else
    echo "usage: $0 [start | stop | status] [NAME]"
    exit 2
fi
