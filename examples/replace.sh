#!/bin/sh
# replace.sh DIRECTORY SETTINGS
#
# Starts a relay in place of the one that this started last with the same directory. That one accepts no more clients,
# serves those that it has, and ends with the last of them. Prints the new one's line `listening A.B.C.D:PORT`.
#
# A holder, whose number stands in DIRECTORY/holder, has the listening socket, and each relay gets it as descriptor 3
# (sd_listen_fds(3)). So the new relay listens before the other one stops, and no client is refused; if it cannot start, the
# other one runs on. The holder also keeps the standard input of the last relay open: once the holder is gone, that has ended.
# For another address another holder starts. Only if that is a part of the other's address, as 127.0.0.1:7000 of 0.0.0.0:7000,
# the other one has to stop first, and then nobody listens for some milliseconds.
#
# DIRECTORY/log is the log of the last relay, a link to log.HOLDER.N; those of earlier relays stay beside it until they are
# removed by hand. It needs python3, which makes the socket.
set -eu
directory=${1:?DIRECTORY and SETTINGS are wanted}
settings=${2:?DIRECTORY and SETTINGS are wanted}
relayd=${RELAYD:-relayd}
case $settings in /*) ;; *) settings=$PWD/$settings ;; esac

# Listens at an address, and becomes a program that has the socket as descriptor 3.
listen='import os, socket, sys
host, _, port = sys.argv[1].rpartition(":")
try:
    made = socket.create_server((host, int(port)), backlog=4096)
except OSError as error:
    sys.exit(f"listen: {sys.argv[1]}: {error.strerror}")
os.dup2(made.fileno(), 3)
os.set_inheritable(3, True)
os.execvp(sys.argv[2], sys.argv[2:])'

# The holder: starts a relay for each two lines of the FIFO `asked`, the program and the settings. Answers by what that prints, or
# by the name of its log.
hold='exec 6<> "$1/asked.new" 7<> "$1/answer.new" && echo ready >&7
while read -r relayd <&6 && read -r settings <&6; do
    rm -f "$1/input" "$1/output" && mkfifo "$1/input" "$1/output"
    log=log.$$.$((count = ${count-0} + 1)) listening=
    LISTEN_FDS=1 sh -c "export LISTEN_PID=\$\$; exec \"\$@\"" sh "$relayd" run --until-eof --config "$settings" \
        < "$1/input" > "$1/output" 2> "$1/$log" 4>&- 5>&- 6>&- 7>&- &
    exec 4> "$1/input"
    if read -r listening < "$1/output"; then
        exec 5>&4 && ln -sf "$log" "$1/log"
    fi
    exec 4>&-
    echo "${listening:-$log}" >&7
done'

# A fault in the settings leaves the other relay as it is.
"$relayd" check --config "$settings" > "$directory/settings"
wanted=$(sed -n 's/^listen=//p' "$directory/settings")

# The other relay's holder, if it is one: after a start of the machine the number may be another process's.
held=$(cat "$directory/address" 2> /dev/null || true)
other=$(cat "$directory/holder" 2> /dev/null || true)
grep -qs relayd-holder "/proc/$other/cmdline" || other=

# Starts another holder, and returns whether it listens.
start_holder() {
    rm -f "$directory/asked.new" "$directory/answer.new"
    mkfifo "$directory/asked.new" "$directory/answer.new"
    python3 -c "$listen" "$wanted" sh -c "$hold" relayd-holder "$directory" \
        < /dev/null > "$directory/answer.new" 2> "$directory/fault" &
    holder=$!
    read -r _ < "$directory/answer.new"
}

# Whether a holder could not listen since the other one does: at the same port, and one of both at every address.
is_the_others() {
    [ -n "$other" ] && [ "${held##*:}" = "${wanted##*:}" ] || return 1
    case "$held $wanted" in *0.0.0.0:*) return 0 ;; *) return 1 ;; esac
}

end_other() {
    [ -z "$other" ] || [ "$other" = "$holder" ] || kill "$other" 2> /dev/null || true
}

new='' holder=$other
if [ -z "$other" ] || [ "$held" != "$wanted" ]; then
    # The other relay listens no longer within two seconds. After some more it is another program that listens there.
    new=.new tries=0
    until start_holder; do
        tries=$((tries + 1))
        is_the_others && [ "$tries" -lt 500 ] || { cat "$directory/fault" >&2 && exit 1; }
        end_other
        sleep 0.01
    done
fi
printf '%s\n' "$relayd" "$settings" > "$directory/asked$new"
read -r answer < "$directory/answer$new"
if [ "${answer#listening }" = "$answer" ]; then
    cat "$directory/$answer" >&2
    rm "$directory/$answer"
    [ -z "$new" ] || kill "$holder"
    exit 1
fi
if [ -n "$new" ]; then
    mv "$directory/asked.new" "$directory/asked"
    mv "$directory/answer.new" "$directory/answer"
    end_other
    echo "$holder" > "$directory/holder"
    echo "$wanted" > "$directory/address"
fi
echo "$answer"
