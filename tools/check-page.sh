#!/bin/sh
# Tries the page, web/b67.html, in headless Chromium, in the Firefox that BROWSER names, or in WebKit, Safari's engine: from the top of
# the repository
#
#     sh tools/check-page.sh [PROGRAM [FOLDER]]
#     BROWSER=firefox-esr sh tools/check-page.sh [PROGRAM [FOLDER]]
#     BROWSER=webkit sh tools/check-page.sh [PROGRAM [FOLDER]]
#
# PROGRAM is `b67` on the path if it isn't given. Each deck of decks/ is opened, run and stepped through, and every key is pressed.
# After each the state on the page is compared with what PROGRAM's `image` and `dump` print at that count. Each task of each lesson
# is done wrongly and then rightly; so is a teacher's sheet, sent as a link; what a pupil hands in is opened, and done again. Bad
# input is tried, decks of 10,000 cards and of 4 MB, a deck of one's own after a reload, and in Chromium the page under policies that
# forbid workers or WebAssembly. A complaint of the browser's console counts as a difference, and one of the net if the page itself
# asked for that address. TRIES=keeps,policies tries these parts alone; web/check/page.mjs names them. With FOLDER pictures of the
# page are written there. Three minutes on a machine that does nothing else. Chromium wants chromedriver beside it (Debian:
# chromium-driver); CHROMEDRIVER names another one. WebKit wants WebKitWebDriver, its MiniBrowser, and Xvfb where there is no display
# (Debian: webkit2gtk-driver, xvfb).
#
# The last line is `N the same, M different`. Status 1 if anything differs, 2 if something is missing. No part of the gate.
set -eu
usage() {
    echo "usage: sh tools/check-page.sh [PROGRAM [FOLDER]]" >&2
    exit 2
}
missing() {
    echo "check-page.sh: $1" >&2
    exit 2
}
[ $# -le 2 ] || usage
case ${1-} in -*) usage ;; esac
top=$(cd "$(dirname "$0")/.." && pwd)
program=$(command -v "${1:-b67}") || missing "${1:-b67}: no such program"
[ -f "$top/web/b67.html" ] || missing "web/b67.html isn't there: sh tools/web.sh"
command -v node >/dev/null || missing "node isn't on the path"
browser=
if [ "${BROWSER-}" = webkit ]; then
    command -v WebKitWebDriver >/dev/null || missing "WebKitWebDriver isn't on the path (Debian: apt-get install webkit2gtk-driver)"
    for name in /usr/lib/*/webkit2gtk-4.*/MiniBrowser /usr/libexec/webkit2gtk-4.*/MiniBrowser; do
        [ ! -x "$name" ] || browser=$name
    done
    [ -n "$browser" ] || missing "WebKit's MiniBrowser isn't there (Debian: apt-get install webkit2gtk-driver)"
    [ -n "${DISPLAY-}${WAYLAND_DISPLAY-}" ] || command -v Xvfb >/dev/null || missing "there is no display, and Xvfb isn't on the path (Debian: apt-get install xvfb)"
fi
for name in ${BROWSER:-chromium chromium-browser google-chrome}; do
    [ -n "$browser" ] || browser=$(command -v "$name") || true
done
[ -n "$browser" ] || missing "${BROWSER:-Chromium} isn't on the path"
case ${browser##*/} in
firefox* | MiniBrowser) ;;
*) command -v "${CHROMEDRIVER:-chromedriver}" >/dev/null || missing "${CHROMEDRIVER:-chromedriver} isn't on the path (Debian: apt-get install chromium-driver)" ;;
esac
exec node "$top/web/check/page.mjs" "$browser" "$top/web/b67.html" "$program" "$top/decks" ${2+"$2"}
