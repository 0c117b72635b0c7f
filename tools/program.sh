# How a command gets the proved program behind it: sourced by ./why, ./blocks and ./mend. Whoever sources it has refuse
# and the repository's folder in root, has sourced tools/setup.sh, and has what it is called in who.
. "$root/tools/progress.sh"

# the_program [OTHER]: sets program to what answers: another one where it is named, else who_program, proved and built
# where some source is newer.
the_program() {
    program=${1-}
    [ -z "$program" ] || return 0
    program=$root/target/bin/${who}_program checked=$root/target/${who}_checked
    if [ ! -x "$program" ] || { stale "$program" && stale "$checked"; }; then
        kit || exit 1
        echo "$who: proving and building the $who program; this takes minutes." >&2
        log=$root/target/${who}_build.log
        mkdir -p "$root/target" || exit 1
        built "${who}_program" >"$log" 2>&1 || {
            tail -n 20 "$log" >&2
            refuse "the $who program could not be built; '$log' has all that was said."
        }
        : >"$checked"
    fi
    program=$(runnable "$program") || exit 1
}
