#!/usr/bin/env bash
# No function has more than 40 lines, in Rattle, Python or bash, but for those that .ci/exceptions names.
. "$(dirname "$0")/../cases.sh"

# One of 41 lines in each language, one of 40, and an exception that is none.
mkdir "$room/made"
{ printf '%s\n' 'impl Parts {' '    pub(crate) fn long(&self) -> u8' '        ensures { result ≡ 0 }' '    {'; lines 41 '        next();'; printf '%s\n' '    }' '}'; } >"$room/made/a.rt"
{ printf '%s\n' 'pub fn short() -> u8 {'; lines 40 '    next();'; echo '}'; } >"$room/made/b.rt"
{ echo 'def long():'; lines 41 '    pass'; } >"$room/made/c.py"
{ echo 'long() {'; lines 41 '    true'; echo '}'; } >"$room/made/d.sh"
echo 'b.rt short' >"$room/list"
refused 'a.rt long has 41 lines' functions "$room/made" "$room/list"
refused 'c.py long has 41 lines' functions "$room/made" "$room/list"
refused 'd.sh long has 41 lines' functions "$room/made" "$room/list"
refused "b.rt short is an exception, and isn't longer" functions "$room/made" "$room/list"

bar functions
