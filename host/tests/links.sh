#!/bin/sh
# Symbolic links: which are followed. Those of one user, and through several folders, are in files.sh.
# shellcheck source=host/tests/checks
. "$(dirname "$0")/checks"

"$host" --new sample '(add (1))' >/dev/null
ln -s second first
ln -s first second
run 'links in a circle' 3 '' first '(ask (1))'
told 'links in a circle' 'cannot open first: Too many levels of symbolic links'
run 'links in a circle: begun' 3 '' --new first
rm first second
i=0
ln -s sample link0
while [ $i -lt 39 ]; do
    ln -s link$i link$((i + 1))
    i=$((i + 1))
done
run 'forty links' 0 '1 approved
end 1 1 1' link39 '(ask (1))'
ln -s link39 link40
run 'a link too many' 3 '' link40 '(ask (1))'
rm link*
mkdir inner
ln -s "$PWD/sample" inner/whole
ln -s ../sample inner/up
run 'a link with a whole path' 0 '' -q inner/whole '(ask (1))'
run 'a link with a path up' 0 '' -q inner/up '(ask (1))'
ln -s inner folder
run 'a folder through a link' 0 '' -q folder/up '(ask (1))'
run 'a link to a folder' 3 '' folder '(ask (1))'
told 'a link to a folder' 'cannot open folder: it is not a file'
ln -s sample/ inner/file
run 'a link to a file as a folder' 3 '' inner/file '(ask (1))'
rm -r inner folder

# The book of this user, private; a name for it in a folder that others may write, made by one of them.
if [ "$(id -u)" -eq 0 ]; then
    chmod 600 sample
    # planted WHAT FOLDER-MODE FOLDER-OWNER LINK-OWNER
    planted() {
        rm -rf shared
        mkdir -m "$2" shared
        ln -s "$PWD/sample" shared/book
        chown "$3" shared
        chown -h "$4" shared/book
        cp sample kept
    }
    words='cannot open shared/book: it is a link of another user in a folder that others may write'
    # refused and followed WHAT FOLDER-MODE FOLDER-OWNER LINK-OWNER
    refused() {
        planted "$@"
        run "$1: a change" 3 '' shared/book '(add (2))'
        told "$1: a change" "$words"
        same "$1: left" sample kept
        run "$1: a batch" 3 '' --batch shared/book
        run "$1: an ask" 3 '' shared/book '(ask (1))'
        run "$1: a check" 3 '' --check shared/book
        told "$1: a check" "$words"
        run "$1: a copy" 3 '' --backup copy shared/book
        ln -s shared/book own
        run "$1: through a link of this user" 3 '' own '(add (2))'
        rm own
        equal "$1: the link stays" "$(readlink shared/book)" "$PWD/sample"
    }
    followed() {
        planted "$@"
        run "$1" 0 '' -q shared/book '(add (2))'
        run "$1: back" 0 '' -q sample '(drop (2))'
        same "$1: changed through the link" sample kept
    }
    refused 'planted in a sticky folder' 1777 0 65534
    refused 'planted in a folder for all' 777 0 65534
    refused 'planted in a folder of a group' 775 0 65534
    refused 'planted in a sticky folder of a third user' 1777 1234 65534
    followed 'a link of this user in a sticky folder' 1777 65534 0
    followed 'a link of the owner of a sticky folder' 1777 65534 65534
    followed 'a link in a folder that only its owner may write' 755 0 65534
    rm -rf shared
else
    skip 'links of other users: needs root'
fi
if can_change_user; then
    mkdir -m 777 shared
    cp sample shared/ours
    chmod 666 shared/ours
    ln -s ours shared/roots
    ln -s ours shared/anothers
    chown -h 1234 shared/anothers
    chown 4321 shared
    as_nobody "$host" -q shared/roots '(ask (1))' 2>../err
    equal 'a link of root' $? 0
    as_nobody "$host" -q shared/anothers '(ask (1))' 2>../err
    equal 'a link of neither' $? 3
else
    skip 'links of root: needs root and setpriv'
fi

report
