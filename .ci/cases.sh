# What a check of the sources begins with: a folder for made-up sources, which its bar must refuse each time.
. "$(dirname "${BASH_SOURCE[0]}")/check.sh"

if ! command -v python3 >/dev/null; then
    echo 'Without python3 this bar is not looked at.'
    exit 0
fi

# bar NAME WORDS..: runs the script of that name in .ci.
bar() {
    local name=$1
    shift
    python3 -B ".ci/$name.py" "$@"
}

# refused SAYING NAME WORDS..: the bar ends with 1, and says that.
refused() {
    local saying=$1 status=0
    shift
    bar "$@" >"$room/said" 2>&1 || status=$?
    [ "$status" = 1 ] && grep -qF -- "$saying" "$room/said" || fail "its made-up case isn't refused as '$saying': status $status, $(cat "$room/said")"
}

# lines COUNT TEXT: that many lines of a text.
lines() {
    awk -v count="$1" -v text="$2" 'BEGIN { for (i = 0; i < count; i++) print text }'
}
