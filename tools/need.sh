# What the scripts need on a machine, looked for before anything runs. To be sourced.

need() { # COMMAND WHAT-TO-DO
  command -v "$1" >/dev/null 2>&1 && return
  echo "$1 is not on the PATH: $2" >&2
  exit 1
}

# Rattle's toolchain is no Debian package: it must be there.
need_rattle() { need rt "install the Rattle kit (rattle-kit-13f or newer) first"; }

# Debian's own Rust is too old for the second program (its Cargo.toml names the version): it must be there too.
need_cargo() { need cargo "install Rust 1.88 or newer first"; }

# Hex into bytes. Debian has it from the start.
need_perl() { need perl "install it first"; }

# A C compiler, for the program that embeds the monitor.
need_cc() { need cc "install a C compiler first (Debian: apt-get install gcc libc6-dev)"; }

# It counts instructions, for the benchmark alone.
need_valgrind() { need valgrind "install it first (Debian: apt-get install valgrind)"; }

# The comparison with the second program is a script.
need_python() {
  python3 -c 'import sys; sys.exit(sys.version_info < (3, 9))' >/dev/null 2>&1 && return
  echo "python3 is not on the PATH, or is older than 3.9: install it first (Debian: apt-get install python3)" >&2
  exit 1
}
