# sources.bash: where the released program and the built one are, and what they are made from.
# Scripts source it at the top of the tree, under `set -o pipefail`. It takes bash 4.4, coreutils and findutils.
# shellcheck shell=bash disable=SC2034
export LC_ALL=C
released=dist/sioaudit-linux-x86_64
manifest=dist/MANIFEST
built=crates/sioaudit/out/sioaudit

# Sets `crates` to the crates that the program depends on by crates.txt, and its own, and `folders` to those of their sources.
find_sources() {
    local -A below=() found=([sioaudit]=1)
    local line name part left=(sioaudit)
    while read -r line || [[ -n $line ]]; do
        line=${line%%#*}
        [[ ! $line =~ ^([[:alnum:]_-]+)[^:]*:?(.*) ]] || below[${BASH_REMATCH[1]}]=${BASH_REMATCH[2]//,/ }
    done <crates.txt || return
    crates=() folders=()
    while ((${#left[@]})); do
        line=${left[-1]}
        unset 'left[-1]'
        crates+=("crates/$line")
        for name in ${below[$line]}; do
            # (a library of the kit has no line)
            if [[ -n ${below[$name]+is} && -z ${found[$name]-} ]]; then
                found[$name]=1
                left+=("$name")
            fi
        done
    done
    for name in "${crates[@]}"; do
        for part in src specs proofs; do
            [[ ! -d $name/$part ]] || folders+=("$name/$part")
        done
    done
}

# Prints the one sum over all sources, in the order of the bytes of their paths.
source_sum() {
    local sum
    sum=$(find crates.txt HANDLES "${folders[@]}" ! -type d -print0 | sort -z | xargs -0 sha256sum | sha256sum) || return
    printf '%s\n' "${sum%% *}"
}

# Prints the SHA-256 of a file.
sum_of() {
    local sum
    sum=$(sha256sum <"$1") || return
    printf '%s\n' "${sum%% *}"
}

# Returns whether there is a built program, and no source is newer.
is_built() {
    local newer
    [[ -x $built ]] && newer=$(find crates.txt HANDLES "${folders[@]}" -newer "$built" -print -quit) && [[ -z $newer ]]
}
