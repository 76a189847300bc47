# shellcheck shell=sh
# Read by the scripts that measure beside Scintilla. `scintilla` becomes its shared library, which SCINTILLA may name, and `display` the words that a command
# gets a display by. Both are empty where there is no such thing. Debian's package scite brings the library (apt-get install scite xvfb xauth). It wants a
# display, which is a virtual one where there is none.
scintilla=${SCINTILLA:-}
for found in /usr/lib/scite/libscintilla.so /usr/lib/*/scite/libscintilla.so /usr/local/lib/scite/libscintilla.so; do
    [ -n "$scintilla" ] || [ ! -e "$found" ] || scintilla=$found
done
display=
if [ -n "$scintilla" ] && [ -z "${DISPLAY:-}" ]; then
    if command -v xvfb-run >/dev/null; then
        # shellcheck disable=SC2034 # the script that reads this uses it
        display="xvfb-run -a"
    else
        echo "No display, and no xvfb-run: without Scintilla."
        scintilla=
    fi
fi
