# shellcheck shell=sh
# Sourced, from the top of the repository. `have PACKAGE TEST..`: runs TEST; where it fails, fetches the Debian package by name and runs it
# again. Where the package cannot be had either, the script that asked says so and exits 77.
mkdir -p target
lock=$(pwd -P)/target/packages.lock

# COMMAND..: alone among the tests that fetch packages, since apt-get refuses a second one at once
alone() { (command -v flock >/dev/null && flock 9; "$@") 9>"$lock"; }

install_package() { DEBIAN_FRONTEND=noninteractive apt-get install -y --no-install-recommends "$1"; }
fetch_package() { install_package "$1" || { apt-get update && install_package "$1"; }; }

have() {
    package=$1
    shift
    "$@" >/dev/null 2>&1 && return
    alone fetch_package "$package" >/dev/null 2>&1 || :
    "$@" >/dev/null 2>&1 && return
    echo "skipped: $(basename "$0") needs the package $package, which cannot be had here"
    exit 77
}
