# Sourced by `anno` and `build`: which proved programs stand.

# Whether the proved program of this name stands in the repository at this folder, and no source is newer.
# It doesn't matter who made it, ./build or the gate.
is_built() {
  local program=$1/crates/$2/out/$2
  [ -x "$program" ] && [ -z "$(sources_newer_than "$1" "$program")" ]
}

# The first source that is newer than a program, if there is one.
sources_newer_than() {
  find "$1/crates" "$1/crates.txt" -name out -prune -o -type f \
    \( -name '*.rt' -o -name '*.antt' -o -name crates.txt \) -newer "$2" -print -quit
}
