# The stamp of the proved program, for the launcher and the gate to source. $here is the repository's folder.
#
# A program is run only where a build proved it from just these sources. A stamp beside it tells so: a line with the sum
# of the toolchain's command and its version, one with the sum of the sources that the program stands on, and one with
# the sum of the program itself. It is written last, so a build that failed or was cut off leaves none.
# shellcheck shell=sh disable=SC2154

out=$here/crates/flowpmd/out
program=$out/flowpmd
stamp=$program.proved
toolchain=$(command -v rt)

sum_of() {
    sha256sum <"$1" | cut -d ' ' -f 1
}

# The crates that the program stands on and then its own, by crates.txt: one a line, each behind those that it needs.
crates_needed() {
    awk '
        function visit(name,    deps, count, i) {
            if (!(name in below) || (name in seen)) return
            seen[name] = 1
            count = split(below[name], deps, " ")
            for (i = 1; i <= count; i++) visit(deps[i])
            print name
        }
        { sub(/#.*/, ""); colon = index($0, ":") }
        colon { split(substr($0, 1, colon - 1), head, " "); below[head[1]] = substr($0, colon + 1) }
        END { visit("flowpmd") }
    ' "$here/crates.txt"
}

# The sum of all files that decide what a build proves, with their names.
sum_of_sources() {
    (
        cd "$here" || exit 1
        {
            printf '%s\n' crates.txt HANDLES
            for crate in $(crates_needed); do
                find "crates/$crate/src" "crates/$crate/specs" "crates/$crate/proofs" -type f 2>/dev/null
            done
        } | LC_ALL=C sort | tr '\n' '\0' | xargs -0 sha256sum 2>&1 | sha256sum | cut -d ' ' -f 1
    )
}

# Whether the program is the one that was proved from these sources. Where there is no toolchain, any one counts.
is_proved() {
    [ -f "$stamp" ] && [ -x "$program" ] || return 1
    {
        read -r of_toolchain _version
        read -r of_sources
        read -r of_program
    } <"$stamp"
    [ -z "$toolchain" ] || [ "$of_toolchain" = "$(sum_of "$toolchain")" ] || return 1
    [ -n "$of_program" ] && [ "$of_sources" = "$(sum_of_sources)" ] && [ "$of_program" = "$(sum_of "$program")" ]
}

# Writes the stamp of a program that was just proved, from sources whose sum was $1 before.
write_stamp() {
    [ -x "$program" ] && [ "$1" = "$(sum_of_sources)" ] || return 1
    printf '%s\n' "$(sum_of "$toolchain") $(rt version)" "$1" "$(sum_of "$program")" >"$stamp.new" || return 1
    mv -f "$stamp.new" "$stamp"
}
