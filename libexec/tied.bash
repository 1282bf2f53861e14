# For the commands to source: processes that end with the command that started them.

# tied COMMAND..: becomes COMMAND, which the kernel kills when this command ends, also by SIGKILL, which no trap sees.
# Only for a part of a pipeline or what is started with `&`. A command that is gone before the kernel knows runs nothing.
# Without setpriv (util-linux 2.33) COMMAND ends by itself, at the end of its input or at its next write.
can_tie=
if setpriv --pdeathsig KILL true 2>/dev/null; then can_tie=yes; fi

tied() {
    [[ -z $can_tie ]] || exec setpriv --pdeathsig KILL sh -c '[ "$PPID" = "$1" ] && shift && exec "$@"' sh "$$" "$@"
    exec "$@"
}
