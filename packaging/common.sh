# shellcheck shell=bash
# Lists of what a release, an installed prefix and the Debian package hold. The other scripts of packaging/ read it from the top of the
# repository, so that a new tool, page or module has to be named nowhere.

version=$(cat VERSION)
[[ $version =~ ^[0-9]+\.[0-9]+\.[0-9]+$ ]] || { echo "$0: no version in VERSION: '$version'" >&2 && exit 1; }

# The programs. What is built of NAME is bin/NAME, and bin/NAME.static with the C library inside.
programs() {
    printf '%s\n' qrp_cmd qrp_strategy qrp_gates
}

# The tools are the executable files of tools/. The tool NAME is installed as the command qrp-NAME.
tool_files() {
    find tools -maxdepth 1 -type f -executable | sort
}

# The modules that the tools share.
tool_modules() {
    find tools -mindepth 2 -type f -name '*.py' | sort
}

# The Python module.
python_files() {
    find python/qrp_check -type f \( -name '*.py' -o -name py.typed \) | sort
}

# Documents and examples.
document_files() {
    { printf '%s\n' README.md CHANGELOG.md CONTRIBUTING.md && find docs -type f \( -name '*.md' -o -name '*.svg' \); } | sort
}
example_files() {
    find examples -type f ! -path '*/__pycache__/*' | sort
}

# The manual pages, as paths of a folder of manual pages.
manual_pages() {
    find man -name '*.[1-9]' -printf '%f\n' | sort | sed 's/.*\.\(.\)$/man\1\/&/'
}

# The names of the library, each of which has a page that leads to qrp_check(3).
library_calls() {
    sed -n 's/^ *\(qrp_[a-z_]*\);$/\1/p' include/libqrp.map
}

# Where the shells look for completions: the name of a file of packaging/completion, and its place below share/.
completions() {
    local name
    while read -r name; do
        echo "$name.bash bash-completion/completions/$name"
        echo "_$name zsh/site-functions/_$name"
        echo "$name.fish fish/vendor_completions.d/$name.fish"
    done < <(programs)
}

# mode FILE: 755 for a command, and 644 for any other file
mode() {
    if [ -x "$1" ]; then echo 755; else echo 644; fi
}

# quoted TEMPLATE TEXT: the text as the format of this template writes it
quoted() {
    local text=$2
    # shellcheck disable=SC2001
    case $1 in
    *.cmake.in) text=${text//\\/"\\\\"} text=${text//\"/"\\\""} text=${text//\$/"\\\$"} ;;
    *.pc.in) text=$(sed 's/[]\\"'"'"' #`[]/\\&/g' <<<"$text") ;;
    *.[1-9]) text=$(sed 's/\\/\\e/g; s/"/\\(dq/g; s/'"'"'/\\(aq/g; s/`/\\(ga/g' <<<"$text") ;;
    esac
    printf '%s' "$text"
}

# filled TEMPLATE PREFIX LIBDIR: the template with the version and these words, which are in the format of the template, in their places
filled() {
    local text
    text=$(cat "$1")
    text=${text//@VERSION@/"$version"}
    text=${text//@MAJOR@/"${version%%.*}"}
    text=${text//@PREFIX@/"$2"}
    text=${text//@LIBDIR@/"$3"}
    printf '%s\n' "$text"
}
