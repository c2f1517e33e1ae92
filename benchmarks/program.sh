# Read by the benchmarks: a program in a repository of its own, which stands on copies of crates of this one.

# Makes the repository in a temporary folder, which goes when the script ends; `$program` is the folder of the program's crate.
# The arguments are the program's name, the libraries that it uses, and the crates to copy.
new_program() {
    local name=$1 libraries=$2 crate part
    shift 2
    folder=$(mktemp -d)
    trap 'rm -rf "$folder"' EXIT
    program="$folder/crates/$name"
    mkdir -p "$program/src"
    for crate in "$@"; do
        mkdir "$folder/crates/$crate"
        for part in src specs proofs; do
            if [ -d "crates/$crate/$part" ]; then cp -r "crates/$crate/$part" "$folder/crates/$crate/"; fi
        done
        grep "^$crate:" crates.txt >> "$folder/crates.txt"
    done
    echo "$name: $libraries" >> "$folder/crates.txt"
}

# Builds the program, and stays in its folder.
build_program() {
    cd "$program"
    rt run > log 2>&1 || { cat log; exit 1; }
}
