#!/bin/sh
# host/build: what the host is compiled with, and with what else it can be.
# shellcheck source=host/tests/checks
. "$(dirname "$0")/checks"

# A copy beside the library that is there already.
mkdir -p ../tree/tools ../tree/target/staticlib
cp -R "$here/.." ../tree/host
cp -R "$here/../../include" ../tree/
cp "$TESTS/../staticlib/libscalebench.a" ../tree/target/staticlib/
printf '#!/bin/sh\n' >../tree/tools/prove
chmod 755 ../tree/tools/prove
built=../tree/target/host/scalebench
unset CC CFLAGS LDFLAGS
../tree/host/build >../out 2>&1
equal 'built' "$? $(cat ../out)" '0 '
equal 'it runs' "$($built --version)" "$("$host" --version)"
if command -v readelf >/dev/null; then
    readelf -hldsW $built >../elf
    for what in 'DYN ' GNU_RELRO NOW '__stack_chk_fail' '_chk@'; do
        grep -q -- "$what" ../elf
        equal "hardened: $what" $? 0
    done
else
    skip 'what the host is linked with: needs readelf'
fi

cat >../cc <<COMPILER
#!/bin/sh
printf '%s\n' "\$@" >'$folder/words'
exec gcc "\$@"
COMPILER
chmod 755 ../cc
CC=$folder/cc CFLAGS='-O1 -DONE=1 -DTWO' LDFLAGS='-Wl,-z,lazy -s' ../tree/host/build >../out 2>&1
equal 'built by another compiler' "$? $(cat ../out)" '0 '
equal 'it runs too' "$($built --version)" "$("$host" --version)"
equal 'its options' "$(grep -c -x -- '-O1\|-DONE=1\|-DTWO\|-Wl,-z,lazy\|-s' ../words)" 5
equal 'in place of the others' "$(grep -c -- 'FORTIFY\|-O2\|relro\|stack-protector' ../words)" 0
equal 'warnings stay' "$(grep -c -x -- '-Wall\|-Wextra\|-Werror' ../words)" 3
CC=$folder/cc CFLAGS='' LDFLAGS='' ../tree/host/build >../out 2>&1
equal 'no options at all' "$? $(cat ../out) $(grep -c -- 'FORTIFY\|^$' ../words)" '0  0'
equal 'no such compiler' "$(CC=$folder/none ../tree/host/build >../out 2>&1 || echo failed)" failed
../tree/host/build other >../out 2>&1
equal 'a wrong word' "$? $(cat ../out)" '2 usage: host/build [sanitized] [moments]'
report
