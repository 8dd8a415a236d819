#!/bin/sh
# shellcheck disable=SC2154,SC2317 # the checks are called by name, and tests/shared/checks.sh sets names
# What a careless or hostile person cannot do with pkcs12: what is left out, replaced, printed, or worked on for hours.
# Prints `ok NAME` or `not ok NAME` for each, `skipped NAME` with the reason for what this machine has no means for, and ends with 1
# where one is not ok.
set -eu

home=$(cd "$(dirname "$0")/.." && pwd)
work=$(mktemp -d)
trap 'rm -rf "$work"' EXIT
# shellcheck source=tests/shared/checks.sh
. "$home/tests/shared/checks.sh"

# The words $2 .. are within what the command said last in the file $1.
says() {
    said_in=$1
    shift
    grep -qF -- "$*" "$work/$said_in" || {
        echo "not said: $*" >&2
        return 1
    }
}
# Only root can mount, and run as another user.
is_root() {
    [ "$(id -u)" -eq 0 ] || {
        echo "skipped $1: not run as root"
        return 1
    }
}
# The library $1.so in front of the C library's, of the text in $1.c.
in_front() {
    command -v cc >/dev/null || {
        echo "skipped $1: there is no C compiler"
        return 1
    }
    cc -shared -fPIC -o "$work/$1.so" "$work/$1.c" -ldl || exit 1
}
program=$home/crates/pkcs12/out/pkcs12
mode_of() {
    stat -c '%a %U %G' "$@"
}

# --- what is left out ---

unencrypted_key() {
    fails 25 NotExported "nothing was written" export "$work/mixed.p12" --out "$work/left-out" --password-file "$work/p" &&
        says told "not exported: 1, a private key that is not encrypted (keyBag)" && says told "--skip-others" && nothing_at "$work/left-out"
}
holds unencrypted_key_is_a_refusal unencrypted_key
skipped() {
    ends 0 export "$work/mixed.p12" --out "$work/left-out" --password-file "$work/p" --skip-others &&
        says told "certificates: 1" && says told "not exported: 1, a private key that is not encrypted (keyBag)" &&
        [ "$(ls "$work/left-out")" = cert-0.pem ]
}
holds others_are_skipped_if_asked skipped
# What openssl writes with a key in the clear.
openssl_plain_key() {
    have_openssl openssl_plain_key || return 0
    openssl pkey -inform DER -in "$home/examples/openssl-key/key-0.der" -out "$work/key.pem" &&
        openssl x509 -inform DER -in "$home/examples/openssl-key/cert-0.der" -out "$work/cert.pem" &&
        openssl pkcs12 -export -inkey "$work/key.pem" -in "$work/cert.pem" -keypbe NONE -passout pass:p -out "$work/plain-key.p12" || return 1
    fails 25 NotExported "nothing was written" export "$work/plain-key.p12" --out "$work/none" --password-file "$work/p" &&
        ends 0 check "$work/plain-key.p12" --password-file "$work/p" && says said "not exported: 1, a private key"
}
holds key_of_openssl_in_the_clear openssl_plain_key
certificates_alone_are_no_way_round() {
    fails 25 NotExported "nothing was written" export "$work/mixed.p12" --out "$work/none" --password-file "$work/p" --certificates-only
}
holds certificates_only_refuses_others_too certificates_alone_are_no_way_round
no_certificate() {
    ends 0 check "$work/not-a-certificate.p12" --password-file "$work/p" && says said "warning: cert-0 is no X.509 certificate" &&
        ! grep -q "cert-1 is no" "$work/said" || return 1
    ends 0 export "$work/not-a-certificate.p12" --out "$work/no-certificate" --password-file "$work/p" &&
        says told "warning: cert-0 is no X.509 certificate"
}
holds a_certificate_that_is_none_is_told no_certificate
silent() {
    export_keyed "$work/silent" && [ ! -s "$work/told" ] && [ ! -s "$work/said" ] || return 1
    export_keyed "$work/verbose" --verbose && says told "private keys: 1"
}
holds success_is_silent silent

# --- which part is written, and how ---

parts() {
    export_keyed "$work/keys" --keys-only && [ "$(ls "$work/keys")" = key-0.pem ] || return 1
    ends 0 export "$keyed" --out "$work/certificates" --password-file "$keyed_password" --certificates-only &&
        [ "$(ls "$work/certificates")" = cert-0.pem ]
}
holds one_part_alone parts
one_file() {
    export_keyed "$work/one" --one-file && [ "$(ls "$work/one")" = all.pem ] &&
        [ "$(grep -c BEGIN "$work/one/all.pem")" -eq 2 ] || return 1
    head -n 1 "$work/one/all.pem" | grep -q "ENCRYPTED PRIVATE KEY" || return 1
    have_openssl one_file || return 0
    opens_to_the_key "$work/one/all.pem" "file:$work/new" &&
        openssl x509 -in "$work/one/all.pem" -outform DER | cmp - "$home/examples/openssl-key/cert-0.der" || return 1
    fails 2 Usage "--one-file" export "$keyed" --out "$work/none" --one-file --format der
}
holds one_file_for_all one_file
by_name() {
    ends 0 export "$work/names.p12" --out "$work/named" --password-file "$work/p" --names || return 1
    [ "$(find "$work/named" -type f | wc -l)" -eq 6 ] && [ -s "$work/named/cert-3-server.pem" ] && [ -s "$work/named/cert-4-server.pem" ] &&
        [ -s "$work/named/cert-5.pem" ] && [ -s "$work/named/cert-1-.._.._etc_passwd___id___.pem" ] || return 1
    # No name has anything but letters, digits, dots, dashes and underscores, and all can be replaced.
    ! find "$work/named" -type f | sed 's|.*/||' | grep -q '[^A-Za-z0-9._-]' &&
        ends 0 export "$work/names.p12" --out "$work/named" --password-file "$work/p" --names --force
}
holds files_by_friendly_name by_name
json() {
    ends 0 check "$work/names.p12" --password-file "$work/p" --json || return 1
    LC_ALL=C grep -q '[^ -~]' "$work/said" && return 1
    "${PYTHON:-python3}" - "$work/said" <<'END_OF_PYTHON' || return 1
import json
import sys

with open(sys.argv[1], encoding="utf-8") as file:
    found = json.load(file)
assert list(found) == ["certificates", "private_keys", "not_exported", "algorithms", "mac", "old"], found
first = found["certificates"][0]
assert first == {"name": "cert-0", "friendly_name": "a\u202eb\u200bc\u2066d\ufeffe\u2028f\u0085g", "local_key_id": None, "is_certificate": True}
assert found["certificates"][2]["friendly_name"] == "long" * 2000
assert found["certificates"][2]["local_key_id"] == "ab" * 5000
assert found["certificates"][5]["friendly_name"] is None
END_OF_PYTHON
    ends 0 check "$keyed" --password-file "$keyed_password" --json || return 1
    "${PYTHON:-python3}" - "$work/said" <<'END_OF_PYTHON'
import json
import sys

with open(sys.argv[1], encoding="utf-8") as file:
    found = json.load(file)
assert found["private_keys"][0]["certificate"] == "cert-0", found
assert found["private_keys"][0]["local_key_id"] == found["certificates"][0]["local_key_id"]
END_OF_PYTHON
}
holds what_is_there_in_json json

# --- what is replaced ---

foreign() {
    mkdir "$work/home" && echo mine >"$work/home/letter.txt" && echo old >"$work/home/key-0.pem" || return 1
    fails 23 OutputExists "holds letter.txt" export "$keyed" --out "$work/home" --force && [ "$(cat "$work/home/letter.txt")" = mine ] || return 1
    mkdir -p "$work/within/cert-0.pem" && fails 23 OutputExists "holds cert-0.pem" export "$keyed" --out "$work/within" --force || return 1
    mkdir "$work/linked" && ln -s /etc/passwd "$work/linked/cert-0.pem" &&
        fails 23 OutputExists "holds cert-0.pem" export "$keyed" --out "$work/linked" --force
}
holds force_replaces_only_what_export_wrote foreign
attributes_stay() {
    is_root attributes_stay || return 0
    mkdir -m 750 "$work/prepared" && chgrp daemon "$work/prepared" && export_keyed "$work/prepared" || return 1
    [ "$(mode_of "$work/prepared")" = "750 root daemon" ] && [ "$(mode_of "$work/prepared/key-0.pem")" = "600 root root" ] || return 1
    chgrp daemon "$work"/prepared/* && chmod 640 "$work/prepared/key-0.pem" && chmod 644 "$work/prepared/cert-0.pem" || return 1
    export_keyed "$work/prepared" --force && [ "$(mode_of "$work/prepared")" = "750 root daemon" ] &&
        [ "$(mode_of "$work/prepared/key-0.pem" "$work/prepared/cert-0.pem" | sort -u)" = "640 root daemon" ] || return 1
    chmod 666 "$work/prepared/key-0.pem" && export_keyed "$work/prepared" --force &&
        [ "$(mode_of "$work/prepared/key-0.pem")" = "640 root daemon" ] || return 1
    mkdir -m 2750 "$work/setgid" && chgrp daemon "$work/setgid" && chmod 2750 "$work/setgid" && export_keyed "$work/setgid" &&
        [ "$(mode_of "$work/setgid" "$work/setgid/key-0.pem" | tr '\n' ' ')" = "2750 root daemon 600 root daemon " ]
}
holds mode_owner_and_group_stay attributes_stay
mount_points() {
    is_root mount_points || return 0
    mkdir "$work/point" "$work/bound" "$work/bind it" || return 1
    mount -t tmpfs -o size=1m tmpfs "$work/point" 2>/dev/null || {
        echo "skipped mount_points: no tmpfs can be mounted"
        return 0
    }
    outcome=0
    fails 23 OutputExists "is a mount point" export "$keyed" --out "$work/point" && says told "--out '$work/point/pem'" &&
        export_keyed "$work/point/pem" || outcome=1
    umount "$work/point"
    mount --bind "$work/bound" "$work/bind it" && fails 23 OutputExists "is a mount point" export "$keyed" --out "$work/bind it" || outcome=1
    umount "$work/bind it"
    return "$outcome"
}
holds a_mount_point_is_refused_before_any_password mount_points
# As nobody: a folder whose parent cannot be written, and folders of others among those of everybody.
as_nobody() {
    code=0
    setsid -w setpriv --reuid nobody --clear-groups --regid nogroup "$program" "$@" >"$work/said" 2>"$work/told" || code=$?
}
others_folders() {
    is_root others_folders || return 0
    command -v setpriv >/dev/null || {
        echo "skipped others_folders: there is no setpriv"
        return 0
    }
    # The program has to be readable for nobody, wherever this tree is.
    cp "$program" "$work/program" && chmod 755 "$work/program" "$work" && program=$work/program || return 1
    mkdir -m 755 "$work/roots" && mkdir -m 777 "$work/roots/own" && chown nobody "$work/roots/own" && cp "$plain" "$work/readable.p12" &&
        chmod 644 "$work/readable.p12" || return 1
    as_nobody export "$work/readable.p12" --out "$work/roots/own"
    [ "$code" -eq 4 ] && says told "Permission denied" && says told "ls -ld '$work/roots'" || return 1
    mkdir -m 1777 "$work/sticky" && mkdir "$work/sticky/roots" && mkdir -m 777 "$work/sticky/nobodys" && chown nobody "$work/sticky/nobodys" || return 1
    as_nobody export "$work/readable.p12" --out "$work/sticky/roots"
    [ "$code" -eq 23 ] && says told "another user" || return 1
    code=0
    "$program" export "$keyed" --out "$work/sticky/nobodys" 2>"$work/told" || code=$?
    [ "$code" -eq 23 ] && says told "another user"
}
holds folders_of_other_users others_folders
program=$home/crates/pkcs12/out/pkcs12
# Where others could put something else in the place of what is written, nothing is asked, made or read.
hands_of_others() {
    is_root hands_of_others || return 0
    mkdir -m 755 "$work/bobs" "$work/grouped" && chown 1234 "$work/bobs" && chgrp 1234 "$work/grouped" && chmod 775 "$work/grouped" &&
        mkdir -m 777 "$work/for-all" && mkdir -m 755 "$work/for-all/roots" && ln -s bobs "$work/way" || return 1
    for each in bobs way; do
        fails 4 WriteFault "$work/bobs belongs to another user" export "$keyed" --out "$work/$each/pem" && says told "sudo -u '#1234'" &&
            fails 4 WriteFault "$work/bobs belongs to another user" rekey "$keyed" --out "$work/$each/new.p12" || return 1
    done
    fails 4 WriteFault "everybody may write to the folder $work/for-all," export "$keyed" --out "$work/for-all/roots/pem" &&
        fails 4 WriteFault "the group of the number 1234 may write to the folder $work/grouped," export "$keyed" --out "$work/grouped/pem" &&
        says told "chmod +t '$work/grouped'" && nothing_at "$work/bobs/pem" && nothing_at "$work/grouped/pem" || return 1
    # Where only who made a thing may rename it, all may write; and so may root's own group.
    chmod +t "$work/grouped" && export_keyed "$work/grouped/pem" && mkdir -m 775 "$work/roots-group" && chmod 775 "$work/roots-group" &&
        export_keyed "$work/roots-group/pem"
}
holds nothing_is_written_in_the_hands_of_others hands_of_others
# What mkdir makes under the umask 002 of a user with a group of the same name is the user's own.
own_groups() {
    is_root own_groups || return 0
    command -v setpriv >/dev/null || {
        echo "skipped own_groups: there is no setpriv"
        return 0
    }
    cp "$program" "$work/program" && chmod 755 "$work/program" "$work" && cp "$plain" "$work/readable.p12" && cp "$plain_password" "$work/known" &&
        chmod 644 "$work/readable.p12" "$work/known" && mkdir -m 755 "$work/bobs-home" && mkdir -m 775 "$work/bobs-home/own" "$work/bobs-home/team" &&
        chown -R 1234:1234 "$work/bobs-home" && chgrp 4321 "$work/bobs-home/team" && chmod 775 "$work/bobs-home/own" "$work/bobs-home/team" || return 1
    as_bob() {
        code=0
        setsid -w setpriv --reuid 1234 --regid 1234 --clear-groups "$work/program" "$@" >"$work/said" 2>"$work/told" || code=$?
    }
    as_bob export "$work/readable.p12" --out "$work/bobs-home/own/pem" --password-file "$work/known"
    [ "$code" -eq 0 ] && [ "$(mode_of "$work/bobs-home/own/pem")" = "700 UNKNOWN UNKNOWN" ] || return 1
    as_bob export "$work/readable.p12" --out "$work/bobs-home/team/pem" --password-file "$work/known"
    [ "$code" -eq 4 ] && says told "the group of the number 4321 may write" && nothing_at "$work/bobs-home/team/pem"
}
holds a_users_own_group_is_no_stranger own_groups
# In /tmp a file or folder that another user has put there first is not filled.
others_file() {
    is_root others_file || return 0
    mkdir -m 1777 "$work/as-tmp" && chmod 1777 "$work/as-tmp" && : >"$work/as-tmp/new.p12" && chown 1234 "$work/as-tmp/new.p12" || return 1
    fails 23 OutputExists "is a file of another user" rekey "$keyed" --out "$work/as-tmp/new.p12" --force && [ ! -s "$work/as-tmp/new.p12" ] || return 1
    : >"$work/as-tmp/own.p12" && ends 0 rekey "$keyed" --out "$work/as-tmp/own.p12" --force --password-file "$keyed_password" \
        --new-password-file "$work/new" && [ "$(mode_of "$work/as-tmp/own.p12")" = "640 root root" ]
}
holds a_file_of_another_user_is_not_taken_over others_file
# What was made is replaced by a link to a folder of other files, as soon as it is there: neither its mode nor what it holds changes.
swapped() {
    cat >"$work/swap.c" <<'END'
#define _GNU_SOURCE
#include <dlfcn.h>
#include <stdio.h>
#include <stdlib.h>
#include <string.h>
#include <sys/stat.h>
#include <unistd.h>
typedef int renames(const char *, const char *);
static void swap(const char *path, const char *kind) {
    char away[4096];
    renames *next = (renames *)dlsym(RTLD_NEXT, "rename");
    if (!getenv("SWAP") || strcmp(getenv("SWAP"), kind) || !strstr(path, kind)) return;
    snprintf(away, sizeof away, "%s.away", path);
    if (next(path, away) || symlink(getenv("VICTIM"), path)) abort();
}
int mkdir(const char *path, mode_t mode) {
    int done = ((int (*)(const char *, mode_t))dlsym(RTLD_NEXT, "mkdir"))(path, mode);
    if (!done) swap(path, ".part-");
    return done;
}
int rename(const char *from, const char *to) {
    int done = ((renames *)dlsym(RTLD_NEXT, "rename"))(from, to);
    if (!done) swap(to, ".old-");
    return done;
}
END
    in_front swap || return 0
    for kind in .part- .old-; do
        mkdir -m 777 "$work/swapped$kind" && mkdir -m 700 "$work/victim$kind" && echo theirs >"$work/victim$kind/key-0.pem" &&
            [ "$kind" = .part- ] || echo old >"$work/swapped$kind/key-0.pem" || return 1
        code=0
        SWAP=$kind VICTIM=$work/victim$kind LD_PRELOAD=$work/swap.so "$program" export "$keyed" --out "$work/swapped$kind" --force \
            --password-file "$keyed_password" --same-password --rounds 1 >"$work/said" 2>"$work/told" || code=$?
        [ "$(cat "$work/victim$kind/key-0.pem")" = theirs ] && [ "$(stat -c %a "$work/victim$kind")" = 700 ] &&
            [ "$(ls "$work/victim$kind")" = key-0.pem ] && says told "something else is there now" || return 1
        case $kind in .part-) [ "$code" -eq 4 ] || return 1 ;; esac
    done
}
holds what_was_swapped_is_not_touched swapped
# With an access control list the group's bits of the mode are what others may do at most, and the group itself may have less: what
# replaces such a file or folder is for its owner alone.
list_of() {
    # the mode $2 in octal for the owner, the same for user 33, nothing for the group, the mask $3, nothing for others
    "${PYTHON:-python3}" - "$1" "$2" "$3" 2>/dev/null <<'END'
import os, struct, sys
none, mode, mask = 0xffffffff, int(sys.argv[2]), int(sys.argv[3])
entries = [(1, mode, none), (2, mode, 33), (4, 0, none), (16, mask, none), (32, 0, none)]
os.setxattr(sys.argv[1], "system.posix_acl_access", struct.pack("<I", 2) + b"".join(struct.pack("<HHI", *each) for each in entries))
END
}
access_control_lists() {
    cp "$keyed" "$work/listed.p12" && chmod 600 "$work/listed.p12" && export_keyed "$work/listed" || return 1
    list_of "$work/listed.p12" 6 4 && LC_ALL=C ls -ld "$work/listed.p12" | grep -q '^-rw-r-----+' || {
        echo "skipped $name: there are no access control lists here, or ls does not show them"
        return 0
    }
    ends 0 rekey "$work/listed.p12" --in-place --password-file "$keyed_password" --new-password-file "$work/new" &&
        says told "listed.p12 had an access control list, which is not kept" && [ "$(stat -c %a "$work/listed.p12")" = 600 ] &&
        ends 0 rekey "$work/listed.p12" --in-place --password-file "$work/new" --new-password-file "$keyed_password" &&
        [ ! -s "$work/told" ] || return 1
    chmod 640 "$work/listed/cert-0.pem" && list_of "$work/listed/key-0.pem" 6 4 && export_keyed "$work/listed" --force &&
        says told "$work/listed had an access control list, which is not kept" &&
        [ "$(stat -c %a "$work/listed" "$work/listed"/* | sort -u | tr '\n' ' ')" = "600 700 " ] || return 1
    list_of "$work/listed" 7 5 && export_keyed "$work/listed" --force && says told "access control list" &&
        [ "$(stat -c %a "$work/listed")" = 700 ] && export_keyed "$work/listed" --force && [ ! -s "$work/told" ]
}
holds an_access_control_list_is_no_mode access_control_lists
# Another user puts links and folders at every name that root's run may use, and takes them away again, as fast as may be.
raced() {
    is_root raced || return 0
    mkdir -m 1777 "$work/raced" && chmod 1777 "$work/raced" && mkdir -m 700 "$work/kept" && echo theirs >"$work/kept/key-0.pem" &&
        cp "$keyed" "$work/kept/store.p12" && chmod 755 "$work" && find "$work/kept" -exec stat -c '%n %a %U %s' {} + >"$work/before" || return 1
    # the numbers of processes that come next
    first=$(sh -c 'echo $$')
    "${PYTHON:-python3}" - "$work" "$first" <<'END' &
import os, random, sys
work, first = sys.argv[1], int(sys.argv[2])
os.setgroups([]), os.setgid(1234), os.setuid(1234)
os.chdir(work + "/raced")
names = ["pem", "new.p12"] + [name + ending + str(first + n) for name in ("pem", "new.p12") for ending in (".part-", ".old-") for n in range(600)]
while os.getppid() != 1:
    for name in ["pem", "new.p12"] + random.sample(names, 200):
        for make, take in ((lambda: os.symlink(work + "/kept", name), lambda: os.unlink(name)),
                           (lambda: os.symlink(work + "/kept/store.p12", name), lambda: os.unlink(name)),
                           (lambda: os.mkdir(name), lambda: os.rmdir(name))):
            for each in (make, take):
                try:
                    each()
                except OSError:
                    pass
END
    racing=$!
    done=0
    for each in 1 2 3 4 5 6 7 8 9 10 11 12; do
        for given in "export $keyed --out $work/raced/pem --force --same-password --rounds 1" \
            "rekey $keyed --out $work/raced/new.p12 --force --new-password-file $work/new"; do
            # shellcheck disable=SC2086
            if setsid -w "$program" $given --password-file "$keyed_password" >"$work/said" 2>"$work/told"; then
                done=$((done + 1))
                [ "$(stat -c '%U' "$work/raced/pem" 2>/dev/null || echo root)" = root ] || return 1
            fi
            rm -rf "$work/raced/pem" "$work/raced/new.p12"
        done
    done
    kill "$racing" && wait "$racing" 2>/dev/null || :
    find "$work/kept" -exec stat -c '%n %a %U %s' {} + | cmp - "$work/before" && [ "$(cat "$work/kept/key-0.pem")" = theirs ] &&
        cmp "$keyed" "$work/kept/store.p12"
}
holds who_swaps_links_meanwhile_gains_nothing raced
# Each refusal of the place comes before a question: no password is given here.
early() {
    fails 4 WriteFault "no-such" export "$keyed" --out "$work/no-such/out" && says told "mkdir -p '$work/no-such'" || return 1
    long=$(printf 'n%.0s' $(seq 1 300))
    fails 4 WriteFault "File name too long" export "$keyed" --out "$work/$long" && says told "shorter name" || return 1
    ln -s "$work" "$work/a-link" && fails 23 OutputExists "is a link" export "$keyed" --out "$work/a-link" --force &&
        says told "Remove it, or give another name" || return 1
    fails 23 OutputExists "is not a folder" export "$keyed" --out "$work/p" --force && says told "Remove it, or give another name"
}
holds what_cannot_be_made_is_told_first early

# --- faults that come late ---

late_faults() {
    cat >"$work/late.c" <<'END'
#define _GNU_SOURCE
#include <dlfcn.h>
#include <errno.h>
#include <stdlib.h>
#include <string.h>
#include <sys/stat.h>
int fsync(int fd) {
    struct stat there;
    const char *kind = getenv("LATE");
    fstat(fd, &there);
    if (kind && !strcmp(kind, "file") && S_ISREG(there.st_mode)) return errno = EDQUOT, -1;
    if (kind && !strcmp(kind, "folder") && S_ISDIR(there.st_mode)) return errno = EIO, -1;
    return 0;
}
int rename(const char *from, const char *to) {
    int (*next)(const char *, const char *) = (int (*)(const char *, const char *))dlsym(RTLD_NEXT, "rename");
    int done = next(from, to);
    const char *kind = getenv("LATE");
    if (kind && !strcmp(kind, "rename") && done == 0) return errno = ENOENT, -1;
    return done;
}
END
    in_front late || return 0
    for kind in file folder; do
        code=0
        LATE=$kind LD_PRELOAD=$work/late.so "$program" export "$keyed" --out "$work/late" --password-file "$keyed_password" \
            --same-password --rounds 1 2>"$work/told" || code=$?
        [ "$code" -eq 4 ] && [ ! -e "$work/late" ] && [ ! -e "$work/late.part-"* ] || return 1
    done
    # A rename that was done and is called failed, as over NFS: the folder is there, and that is told.
    code=0
    LATE=rename LD_PRELOAD=$work/late.so "$program" export "$keyed" --out "$work/late" --password-file "$keyed_password" \
        --same-password --rounds 1 2>"$work/told" || code=$?
    [ "$code" -eq 0 ] && [ -s "$work/late/key-0.pem" ] || return 1
    echo old >"$work/late/key-1.pem"
    LATE=rename LD_PRELOAD=$work/late.so "$program" export "$keyed" --out "$work/late" --force --password-file "$keyed_password" \
        --same-password --rounds 1 2>"$work/told" || return 1
    [ "$(ls -d "$work"/late*)" = "$(printf '%s\n' "$work/late" "$work/late.c" "$work/late.so")" ] && [ ! -e "$work/late/key-1.pem" ]
}
holds faults_that_come_late late_faults
# What is replaced stays where the new files cannot be brought to the disk.
old_files_stay() {
    [ -f "$work/late.so" ] || return 0
    mkdir "$work/stays" && echo old >"$work/stays/key-0.pem" || return 1
    code=0
    LATE=file LD_PRELOAD=$work/late.so "$program" export "$keyed" --out "$work/stays" --force --password-file "$keyed_password" \
        --same-password --rounds 1 2>"$work/told" || code=$?
    [ "$code" -eq 4 ] && [ "$(cat "$work/stays/key-0.pem")" = old ] && says told "df -h '$work'"
}
holds old_files_stay_until_new_ones_are_synced old_files_stay
# A store that was written, and whose folder cannot be brought to the disk: it is there, and that is told.
unsynced_store() {
    [ -f "$work/late.so" ] || return 0
    code=0
    LATE=folder LD_PRELOAD=$work/late.so "$program" rekey "$keyed" --out "$work/unsynced.p12" --password-file "$keyed_password" \
        --new-password-file "$work/p" 2>"$work/told" || code=$?
    [ "$code" -eq 0 ] && says told "is written, and may not be on the disk yet" &&
        ends 0 check "$work/unsynced.p12" --password-file "$work/p"
}
holds a_store_whose_folder_is_not_synced_is_told unsynced_store

# --- passwords ---

one_input() {
    fails 2 Usage "both passwords come from one input" export "$keyed" --out "$work/none" --password-file "$work/two-in-one.txt" \
        --new-password-file "$work/two-in-one.txt" || return 1
    ln "$work/two-in-one.txt" "$work/hard-link" && ln -s two-in-one.txt "$work/soft-link" || return 1
    for other in hard-link soft-link ../"$(basename "$work")"/two-in-one.txt; do
        fails 2 Usage "both passwords come from one input" export "$keyed" --out "$work/none" --password-file "$work/two-in-one.txt" \
            --new-password-file "$work/$other" || return 1
    done
    for other in /dev/stdin /dev/fd/0 /proc/self/fd/0; do
        printf 'one\ntwo\n' | fails 2 Usage "both passwords come from one input" export "$keyed" --out "$work/none" --password-stdin \
            --new-password-file "$other" --allow-empty-password || return 1
        fails 2 Usage "both passwords come from one input" export "$keyed" --out "$work/none" --password-stdin \
            --new-password-file "$other" <"$work/two-in-one.txt" || return 1
    done
    mkfifo "$work/fifo" && fails 2 Usage "both passwords come from one input" export "$keyed" --out "$work/none" --password-file "$work/fifo" \
        --new-password-file "$work/fifo" || return 1
    ONE=1 && export ONE && fails 2 Usage "both passwords come from one input" export "$keyed" --out "$work/none" --password-env ONE \
        --new-password-env ONE || return 1
    printf 'x\n' | fails 2 Usage "only one of" check - --password-file /dev/stdin
}
holds two_passwords_from_one_input one_input
same_password() {
    ends 0 export "$keyed" --out "$work/same" --password-file "$keyed_password" --same-password --rounds 1 || return 1
    have_openssl same_password || return 0
    opens_to_the_key "$work/same/key-0.pem" "file:$keyed_password" || return 1
    cat "$keyed_password" | ends 0 export "$keyed" --out "$work/same-pipe" --password-stdin --same-password --rounds 1 &&
        opens_to_the_key "$work/same-pipe/key-0.pem" "file:$keyed_password"
}
holds the_password_is_kept_if_asked same_password
# A word that may be a password is never printed.
never_printed() {
    for words in "check $keyed --password hunter2" "check $keyed --password=hunter2" "check $keyed hunter2" "check $keyed -phunter2" \
        "export $keyed --out $work/none --new-password hunter2" "check $keyed --password-env hunter2" "check $keyed --pass hunter2" \
        "export $keyed --out $work/none --password-file $keyed_password --new-password-env hunter2" "check --password hunter2 $keyed" \
        "check $keyed --password-stdin=hunter2"; do
        code=0
        # shellcheck disable=SC2086
        setsid -w "$home/pkcs12" $words >"$work/said" 2>"$work/told" || code=$?
        { [ "$code" -eq 2 ] || [ "$code" -eq 3 ]; } && ! grep -q hunter2 "$work/told" "$work/said" || {
            echo "printed, or ended with $code: $words" >&2
            return 1
        }
    done
    fails 2 Usage "--forse" export "$keyed" --out "$work/none" --forse
}
holds a_word_that_may_be_a_password never_printed
null_password() {
    fails 16 MacMismatch "no password at all" check "$work/null-password.p12" --password-file "$work/empty" --modern-only && says told "press Enter" || return 1
    ends 0 check "$work/null-password.p12" --password-file "$work/empty" && says told "no password at all" || return 1
    fails 16 MacMismatch "password is wrong" check "$work/null-password.p12" --password-file "$work/p" || return 1
    have_openssl null_password || return 0
    openssl pkcs12 -in "$work/null-password.p12" -passin pass: -noout 2>"$work/told" || return 1
    # Where there is certtool, its own store.
    command -v certtool >/dev/null || return 0
    certtool --to-p12 --outder --null-password --empty-password --p12-name x --load-certificate "$work/cert.pem" --outfile "$work/certtool.p12" \
        2>"$work/told" && fails 16 MacMismatch "no password at all" check "$work/certtool.p12" --password-file "$work/empty" --modern-only
}
holds no_password_is_not_the_empty_one null_password

# --- work ---

at_once() {
    timeout 5 setsid -w "$home/pkcs12" check "$work/hours.p12" >"$work/said" 2>"$work/told" && return 1
    [ $? -eq 8 ] || return 1
    timeout 5 setsid -w "$home/pkcs12" check "$work/more-hours.p12" >"$work/said" 2>"$work/told" && return 1
    says told "pkcs12: WorkLimit (15): " && says told "--limit 4000000000" && says told "33 minutes"
}
holds nothing_is_derived_without_a_password at_once
many_keys() {
    [ -f "$work/many-keys.p12" ] || {
        echo "skipped many_keys: python3 has no cryptography"
        return 0
    }
    for each in 1 1000000000; do
        code=0
        timeout 10 setsid -w "$home/pkcs12" export "$work/many-keys.p12" --out "$work/none" --password-file "$work/p" --same-password \
            --rounds 100000000 --seal-limit "$each" >"$work/said" 2>"$work/told" || code=$?
        [ "$code" -eq 26 ] && says told "sealing 200 private keys takes 20000000000 rounds, 100000000 for each, about 83 minutes" || return 1
    done
    # The limit is exact: 200 keys of 5 rounds.
    fails 26 SealLimit "allows 999" export "$work/many-keys.p12" --out "$work/none" --password-file "$work/p" --same-password --rounds 5 \
        --seal-limit 999 && nothing_at "$work/none" || return 1
    ends 0 export "$work/many-keys.p12" --out "$work/many-keys" --password-file "$work/p" --same-password --rounds 5 --seal-limit 1000 &&
        [ "$(find "$work/many-keys" -type f | wc -l)" -eq 200 ]
}
holds sealing_is_bounded many_keys
# An export of nothing is none, and takes nothing away.
nothing_to_export() {
    fails 25 NotExported 'no private key' export "$plain" --keys-only --out "$work/none" --password-file "$plain_password" \
        --new-password-file "$work/new" && nothing_at "$work/none" || return 1
    mkdir "$work/has-a-key" && echo precious >"$work/has-a-key/key-0.pem" || return 1
    fails 25 NotExported 'no private key' export "$plain" --keys-only --force --out "$work/has-a-key" --password-file "$plain_password" \
        --new-password-file "$work/new" && [ "$(cat "$work/has-a-key/key-0.pem")" = precious ]
}
holds an_export_of_nothing_is_refused nothing_to_export
many_files() {
    fails 27 TooManyFiles "3000 certificates" export "$work/many.p12" --out "$work/none" --password-file "$work/p" --most-files 2999 &&
        nothing_at "$work/none" && ends 0 export "$work/many.p12" --out "$work/many" --password-file "$work/p" --most-files 3000
}
holds the_number_of_files_is_bounded many_files
# The largest resident set for each octet of the store. Where that of the Python here is larger, it counts.
memory() {
    for store in large large-many large-keys pairs; do
        [ -f "$work/$store.p12" ] || {
            echo "skipped $store: python3 has no cryptography"
            continue
        }
        "${PYTHON:-python3}" - "$work/$store.p12" "$program" export "$work/$store.p12" --out "$work/$store" --one-file \
            --password-file "$work/p" --same-password --rounds 1 --most-files 60000 >"$work/told" 2>/dev/null <<'END' || return 1
import os
import resource
import subprocess
import sys

subprocess.run(sys.argv[2:], check=True)
taken = 1024 * resource.getrusage(resource.RUSAGE_CHILDREN).ru_maxrss / os.path.getsize(sys.argv[1])
print(f"{sys.argv[1]}: {taken:.2f} octets for one")
sys.exit(0 if taken <= 4 else 1)
END
        cat "$work/told"
    done
}
holds export_takes_four_octets_of_memory_for_one memory
# A disk that is full when some of the texts are in the one file.
full_disk() {
    mkdir "$work/disk"
    mount -t tmpfs -o size=1m tmpfs "$work/disk" 2>/dev/null || {
        echo "skipped full_disk: no tmpfs can be mounted"
        return 0
    }
    outcome=0
    fails 4 WriteFault "No space left" export "$work/many.p12" --out "$work/disk/out" --one-file --password-file "$work/p" &&
        [ -z "$(ls -A "$work/disk")" ] || outcome=1
    umount "$work/disk"
    return "$outcome"
}
holds a_full_disk_leaves_nothing_of_one_file full_disk
# A file system that is mounted read-only, and one that can have no more files: what is said helps.
read_only() {
    mkdir -p "$work/disk"
    mount -t tmpfs -o ro tmpfs "$work/disk" 2>/dev/null || {
        echo "skipped read_only: no tmpfs can be mounted"
        return 0
    }
    outcome=0
    fails 4 WriteFault "Read-only file system" export "$plain" --out "$work/disk/out" --password-file "$plain_password" &&
        says told "findmnt -T '$work/disk'" || outcome=1
    umount "$work/disk"
    mount -t tmpfs -o nr_inodes=2 tmpfs "$work/disk" || return 1
    fails 4 WriteFault "No space left" export "$plain" --out "$work/disk/out" --password-file "$plain_password" &&
        says told "df -i '$work/disk'" && [ -z "$(ls -A "$work/disk")" ] || outcome=1
    umount "$work/disk"
    return "$outcome"
}
holds a_read_only_file_system_and_one_without_inodes read_only
progress() {
    [ -f "$work/many-keys.p12" ] || return 0
    "$home/tests/shared/at_terminal.py" -- "$home/pkcs12" export "$work/many-keys.p12" --out "$work/progress" --password-file "$work/p" \
        --same-password --rounds 20000 >"$work/told" || return 1
    says told "pkcs12: sealing 200 private keys, which takes about " && says told "pkcs12: [..........] 0 of 200 keys sealed" &&
        says told "pkcs12: [#####.....] 100 of 200 keys sealed" && says told "pkcs12: [##########] 200 of 200 keys sealed"
}
holds a_terminal_shows_how_far_it_is progress
# In processor time, the least of three.
pairs() {
    [ -f "$work/pairs.p12" ] || return 0
    "${PYTHON:-python3}" - "$home/pkcs12" check "$work/pairs.p12" --password-file "$work/p" >"$work/told" <<'END' || return 1
import resource
import subprocess
import sys

least = 60
for _ in range(3):
    before = resource.getrusage(resource.RUSAGE_CHILDREN).ru_utime
    told = subprocess.run(sys.argv[1:], check=True, stdout=subprocess.PIPE, encoding="utf-8").stdout.splitlines()
    least = min(least, resource.getrusage(resource.RUSAGE_CHILDREN).ru_utime - before)
assert told[:2] == ["certificates: 30000", "private keys: 30000"]
assert "key-0: local key id 00752f, belongs to cert-29999" in told
assert "key-29999: local key id 000000, belongs to cert-0" in told
print(f"30,000 pairs: {least:.3f} seconds of a processor")
sys.exit(0 if least < 3 else 1)
END
    cat "$work/told"
}
holds thirty_thousand_pairs_in_seconds pairs

# --- what is sealed ---

# The rounds, the salt and the initialization vector in a document, as openssl reads them.
parameters() {
    openssl pkey -in "$1" -passin "file:$keyed_password" -noout || return 1
    sed '/-----/d' "$1" | openssl base64 -d | openssl asn1parse -inform DER | awk '/INTEGER/ { print $NF } /OCTET STRING/ && ++n < 3 { print $NF }'
}
rounds_and_salts() {
    have_openssl rounds_and_salts || return 0
    for each in one two; do
        ends 0 export "$keyed" --out "$work/salts-$each" --password-file "$keyed_password" --same-password --rounds 54321 || return 1
        parameters "$work/salts-$each/key-0.pem" >"$work/salts-$each.txt" || return 1
        # 54,321 is d431 in hexadecimal
        grep -q ':D431$' "$work/salts-$each.txt" || return 1
    done
    # of three lines the one with the rounds is the only common one
    [ "$(wc -l <"$work/salts-one.txt")" -eq 3 ] || return 1
    [ "$(sort "$work/salts-one.txt" "$work/salts-two.txt" | uniq -d)" = "$(grep ':D431$' "$work/salts-one.txt")" ] || return 1
    ends 0 export "$keyed" --out "$work/by-default" --password-file "$keyed_password" --same-password &&
        parameters "$work/by-default/key-0.pem" | grep -q ':0*927C0$'
}
holds rounds_are_those_asked_for_and_salts_differ rounds_and_salts
# What draws nothing needs no random octets.
without_random_octets() {
    cat >"$work/random.c" <<'END'
#define _GNU_SOURCE
#include <dlfcn.h>
#include <errno.h>
#include <fcntl.h>
#include <stdarg.h>
#include <string.h>
#define OPEN(name) \
int name(const char *path, int flags, ...) { \
    va_list more; va_start(more, flags); int mode = va_arg(more, int); va_end(more); \
    if (strstr(path, "random")) return errno = ENOENT, -1; \
    int (*next)(const char *, int, ...) = (int (*)(const char *, int, ...))dlsym(RTLD_NEXT, #name); \
    return next(path, flags, mode); }
OPEN(open)
OPEN(open64)
END
    in_front random || return 0
    LD_PRELOAD=$work/random.so "$program" check "$keyed" --password-file "$keyed_password" >"$work/said" 2>"$work/told" || return 1
    LD_PRELOAD=$work/random.so "$program" export "$plain" --password-file "$plain_password" --out "$work/undrawn" 2>"$work/told" || return 1
    code=0
    LD_PRELOAD=$work/random.so "$program" export "$keyed" --password-file "$keyed_password" --same-password --out "$work/drawn" \
        2>"$work/told" || code=$?
    [ "$code" -eq 20 ] && says told "random octets /dev/urandom: No such file" && nothing_at "$work/drawn"
}
holds only_sealing_needs_random_octets without_random_octets

# --- what is printed ---

no_bidi() {
    ends 0 check "$work/names.p12" --password-file "$work/p" || return 1
    LC_ALL=C grep -q '[^ -~]' "$work/said" && return 1
    says said 'cert-0: friendly name "a\u{202e}b\u{200b}c\u{2066}d\u{feff}e\u{2028}f\u{85}g"' &&
        says said '.. (8000 characters), local key id abab' && says said '.. (5000 octets)' && [ "$(wc -c <"$work/said")" -lt 2000 ]
}
holds nothing_invisible_reaches_the_terminal no_bidi
odd_paths() {
    odd=$(printf 'no\033[31mred\nx\342\200\256')
    fails 3 ReadFault 'no\u{1b}[31mred\u{a}x\u{202e}' check "$work/$odd" --password-file "$work/p" || return 1
    LC_ALL=C grep -q '[^ -~]' "$work/told" && return 1
    fails 4 WriteFault 'no\u{1b}[31mred' export "$keyed" --out "$work/none/$odd/x" && ! grep -q mkdir "$work/told" || return 1
    LC_ALL=C grep -q '[^ -~]' "$work/told" && return 1
    fails 2 Usage '' check "$plain" "--$odd" && ! LC_ALL=C grep -q '[^ -~]' "$work/told" || return 1
    fails 4 WriteFault "it's" export "$keyed" --out "$work/none/it's/x" && says told "mkdir -p '$work/none/it'\\''s'"
}
holds odd_paths_in_messages odd_paths
# The command that removes what was left is quoted.
quoted() {
    code=0
    # shellcheck disable=SC2016
    sh -c 'mkdir "$1.part-$$" && exec "$2" export "$3" --out "$1" --password-file "$4"' sh "$work/my keys" "$program" "$plain" "$plain_password" \
        2>"$work/told" || code=$?
    [ "$code" -eq 4 ] && grep -q "^    rm -r '$work/my keys\.part-[0-9]*'$" "$work/told" || return 1
    mkdir "$work/my" && sh -c "$(grep '^    rm -r ' "$work/told")" && [ -d "$work/my" ] && nothing_at "$work/my keys"
}
holds a_command_to_paste_is_quoted quoted

# --- what is wrong with a file ---

malformed() {
    : >"$work/nothing.p12"
    fails 10 Malformed "the file is empty" check "$work/nothing.p12" --password-file "$work/p" || return 1
    fails 10 Malformed "PEM text of the kind CERTIFICATE" check "$work/pem.p12" --password-file "$work/p" || return 1
    { cat "$plain" && echo; } >"$work/longer.p12"
    size=$(wc -c <"$plain")
    fails 10 Malformed "the store has $size octets, and the file 1 more after it" check "$work/longer.p12" --password-file "$plain_password" &&
        says told "head -c $size FILE >STORE.p12" || return 1
    head -c 1000 "$plain" >"$work/cut.p12"
    fails 10 Malformed "the store has $size octets and the file 1000: it is cut short" check "$work/cut.p12" --password-file "$plain_password"
}
holds what_is_wrong_with_a_file malformed
# The command that is printed makes a store that is opened.
pem_store() {
    have_openssl pem_store || return 0
    { echo "-----BEGIN PKCS12-----" && openssl base64 -in "$plain" && echo "-----END PKCS12-----"; } >"$work/FILE"
    fails 10 Malformed "PEM text of the kind PKCS12" check "$work/FILE" --password-file "$plain_password" || return 1
    (cd "$work" && sh -c "$(grep '^    sed ' "$work/told")") && cmp "$work/STORE.p12" "$plain"
}
holds a_store_in_pem_is_decoded_as_it_says pem_store
# A list of contents in BER is that of an old store.
contents() {
    for each in content-pem:"what is at octet # is no list of contents" content-ber:"an element of indefinite length begins at octet #" \
        second-content:"content 2, at octet #, is no list of bags"; do
        store=$work/${each%%:*}.p12
        # where the octets are that Python wrote
        at=$("${PYTHON:-python3}" -c 'import sys; octets = open(sys.argv[1], "rb").read()
print(max(octets.find(each) for each in (b"-----BEGIN", b"\x30\x80\0\0", b"\x04\x07no bags")))' "$store")
        said=$(echo "${each#*:}" | sed "s/#/$at/")
        fails 17 ContentMalformed "$said" check "$store" --password-file "$work/p" --modern-only || return 1
        case $store in
            */content-ber.p12) ends 0 check "$store" --password-file "$work/p" && says told "in BER" || return 1 ;;
            *) fails 17 ContentMalformed "$said" check "$store" --password-file "$work/p" || return 1 ;;
        esac
    done
}
holds a_damaged_content_has_a_place contents
no_mac() {
    have_openssl no_mac || return 0
    openssl x509 -inform DER -in "$home/examples/openssl-key/cert-0.der" |
        openssl pkcs12 -export -nokeys -nomac -certpbe NONE -passout pass:p -out "$work/no-mac.p12" || return 1
    fails 12 MacMissing "no MAC" check "$work/no-mac.p12" --password-file "$work/p" && says told "Only if you know from elsewhere" &&
        ! grep -q 'openssl pkcs12' "$work/told"
}
holds a_store_without_a_mac_is_not_laundered no_mac

exit "$failed"
