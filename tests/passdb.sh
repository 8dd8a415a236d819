#!/bin/sh
# shellcheck disable=SC2015,SC2016,SC2317 # the checks are called by name; a password has a dollar
# What ./passdb does: files of names and password hashes, tried as a user does and as somebody hostile would.
# Prints `ok NAME` or `not ok NAME` for each, `skipped NAME` with the reason for what this machine has no means for, and ends with 1
# where one is not ok.
set -eu

home=$(cd "$(dirname "$0")/.." && pwd)
work=$(mktemp -d)
trap 'rm -rf "$work"' EXIT
failed=0
file=$work/users
PASSDB=$home/passdb
export PASSDB

# Prints `ok NAME` or `not ok NAME`: the name $1, and the further words as a command that tells.
holds() {
    name=$1
    shift
    if "$@"; then
        echo "ok $name"
    else
        echo "not ok $name"
        [ ! -s "$work/told" ] || head -n 5 "$work/told" >&2
        failed=1
    fi
}

# Runs ./passdb with the further words in a session without a terminal, and compares its exit number with $1. What it says is in
# $work/said and $work/told.
ends() {
    due=$1
    shift
    code=0
    setsid -w "$PASSDB" "$@" >"$work/said" 2>"$work/told" </dev/null || code=$?
    [ "$code" -eq "$due" ] || {
        echo "passdb $*: due is $due, found is $code" >&2
        return 1
    }
}

# The same, and what it says of the failure begins with its name, $2, and has the text $3 in it.
fails() {
    number_due=$1 name_due=$2 text_due=$3
    shift 3
    ends "$number_due" "$@" || return 1
    head -n 1 "$work/told" | grep -F "passdb: $name_due ($number_due): " | grep -qF -- "$text_due"
}

# Nothing is left beside the file $1.
nothing_beside() {
    for left in "$1".*; do
        if [ -e "$left" ] || [ -L "$left" ]; then
            echo "left: $left" >&2
            return 1
        fi
    done
}

echo s3cret >"$work/one"
echo 'a longer one' >"$work/two"
printf '' >"$work/empty"
echo third >"$work/third"
# Builds the program where it is not built, and where it is older than a source.
[ -x "$home/crates/passdb_command/out/passdb_command" ] || "$home/passdb" build >&2
case $("$PASSDB" --version 2>&1 >/dev/null) in
    *'the program is older than '*) "$PASSDB" build >&2 ;;
esac

# Adds the name $1 with few rounds.
add() {
    ends 0 add "$file" "$1" --password-file "$work/one" --rounds 1000
}

# --- what it is for ---

adds() {
    add bob && add ann && [ "$(cut -d: -f1 "$file" | tr '\n' ' ')" = "ann bob " ] && [ "$(stat -c %a "$file")" = 600 ] && nothing_beside "$file"
}
holds adds_names_in_order adds
lists() { ends 0 list "$file" && printf 'ann\tpbkdf2-sha256\t1000\nbob\tpbkdf2-sha256\t1000\n' | cmp -s - "$work/said"; }
holds lists_names_with_algorithm_and_rounds lists
lists_no_names() { : >"$work/no-names" && ends 0 list "$work/no-names" && [ ! -s "$work/said" ]; }
holds lists_nothing_of_an_empty_file lists_no_names
right() { ends 0 check "$file" bob --password-file "$work/one" --rounds 1000; }
holds takes_the_right_password right
holds refuses_a_wrong_password fails 10 WrongPassword 'not that of the name' check "$file" bob --password-file "$work/two"
holds refuses_an_unknown_name fails 11 NameUnknown 'does not have' check "$file" eve --password-file "$work/one"
exists() {
    cp "$file" "$work/before"
    fails 12 NameExists 'already' add "$file" bob --password-file "$work/two" && cmp -s "$file" "$work/before" && nothing_beside "$file"
}
holds refuses_a_name_that_is_there exists
changes() {
    ends 0 change "$file" bob --password-file "$work/one" --new-password-file "$work/two" --rounds 1000 &&
        ends 0 check "$file" bob --password-file "$work/two" --rounds 1000 &&
        fails 10 WrongPassword '' check "$file" bob --password-file "$work/one"
}
holds changes_a_password changes
wrong_change() {
    cp "$file" "$work/before"
    fails 10 WrongPassword "" change "$file" bob --password-file "$work/one" --new-password-file "$work/third" && cmp -s "$file" "$work/before"
}
holds changes_nothing_under_a_wrong_password wrong_change
draws_salts() {
    for each in one two; do
        ends 0 add "$work/drawn" "$each" --password-file "$work/one" --rounds 1000 || return 1
    done
    [ "$(cut -d '$' -f 4 "$work/drawn" | grep -c .)" -eq 2 ] && [ "$(cut -d '$' -f 4 "$work/drawn" | sort -u | grep -c .)" -eq 2 ]
}
holds entries_of_one_password_differ_in_their_salts draws_salts
resets() {
    cp "$file" "$work/before"
    fails 11 NameUnknown 'does not have' reset "$file" eve --password-file "$work/one" && fails 22 PasswordUnusable 'empty' reset "$file" bob \
        --password-file "$work/empty" && fails 11 NameUnknown '' reset "$file" eve && fails 9 NewPasswordMissing '--password-stdin' reset "$file" bob &&
        fails 3 ReadFault 'add makes one' reset "$work/none" bob --password-file "$work/one" && [ ! -e "$work/none" ] &&
        cmp -s "$file" "$work/before" && nothing_beside "$file" || return 1
    code=0
    echo third | "$PASSDB" reset "$file" bob --password-stdin --rounds 1000 >"$work/said" 2>"$work/told" || code=$?
    [ "$code" -eq 0 ] && ends 0 check "$file" bob --password-file "$work/third" --rounds 1000 &&
        fails 10 WrongPassword '' check "$file" bob --password-file "$work/two" && [ "$(cut -d: -f1 "$file" | tr '\n' ' ')" = "ann bob " ] &&
        [ "$(grep '^ann:' "$file")" = "$(grep '^ann:' "$work/before")" ] && nothing_beside "$file" &&
        ends 0 reset --password-file "$work/two" --rounds 1000 -- "$file" bob
}
holds resets_a_password_that_was_forgotten resets
removes() { ends 0 remove "$file" ann && ends 0 list "$file" && [ "$(cut -f 1 "$work/said")" = bob ] && fails 11 NameUnknown '' remove "$file" ann; }
holds removes_a_name removes
by_variable() {
    (WORD='a longer one' && export WORD && ends 0 check "$file" bob --password-env WORD --rounds 1000) &&
        fails 3 ReadFault 'no environment variable' check "$file" bob --password-env PASSDB_NO_SUCH && ! grep -q PASSDB_NO_SUCH "$work/told"
}
holds takes_a_password_from_the_environment by_variable
lost_variables() {
    for variable in my.password MY-PASSWORD 1st '' IFS PWD passdb_file PASSDB_WAITING; do
        fails 2 Usage 'environment variable by its name' check "$file" bob --password-env "$variable" &&
            fails 2 Usage 'environment variable by its name' change "$file" bob "--new-password-env=$variable" || return 1
    done
}
holds variables_that_a_shell_loses_are_told lost_variables
by_input() {
    code=0
    printf 'a longer one\r\nmore\n' | "$PASSDB" check "$file" bob --password-stdin --rounds 1000 >"$work/said" 2>"$work/told" || code=$?
    [ "$code" -eq 0 ]
}
holds takes_a_password_from_the_standard_input by_input

# The entry of the name $1 is the one that Python's hashlib derives from the password $2, with $3 rounds.
is_derived() {
    "${PYTHON:-python3}" - "$file" "$1" "$2" "$3" <<'END'
import base64, hashlib, sys
path, name, password, rounds = sys.argv[1:]
entry = dict(line.rstrip("\n").split(":", 1) for line in open(path))[name]
_, algorithm, parameters, salt, digest = entry.split("$")
def decoded(text):
    return base64.b64decode(text + "=" * (-len(text) % 4))
assert algorithm == "pbkdf2-sha256" and parameters == f"i={rounds},l=32" and len(decoded(salt)) == 16
assert decoded(digest) == hashlib.pbkdf2_hmac("sha256", password.encode(), decoded(salt), int(rounds), 32)
END
}
by_python() { add cid && is_derived cid s3cret 1000 && ends 0 add "$file" dan --password-file "$work/two" && is_derived dan 'a longer one' 600000; }
holds entries_are_those_of_hashlib by_python
made_by_python() {
    "${PYTHON:-python3}" - >"$work/made" <<'END'
import base64, hashlib
salt = bytes(range(16))
print("zoe:$pbkdf2-sha512$i=2000,l=64$" + "$".join(
    base64.b64encode(it).decode().rstrip("=") for it in (salt, hashlib.pbkdf2_hmac("sha512", b"s3cret", salt, 2000, 64))))
END
    ends 0 check "$work/made" zoe --password-file "$work/one" --rounds 2000 && fails 10 WrongPassword '' check "$work/made" zoe --password-file "$work/two" &&
        ends 0 list "$work/made" && printf 'zoe\tpbkdf2-sha512\t2000\n' | cmp -s - "$work/said"
}
holds takes_entries_of_hashlib made_by_python
renews() { ends 0 check "$file" cid --password-file "$work/one" --rounds 3000 && is_derived cid s3cret 3000 && nothing_beside "$file"; }
holds makes_an_entry_with_few_rounds_anew renews

# --- how a password is tested ---

stays_as_it_is() {
    cp "$file" "$work/before" && chmod 400 "$file" && : >"$file.lock" || return 1
    ends 0 check "$file" cid --password-file "$work/one" --no-renew && [ ! -s "$work/told" ] && cmp -s "$file" "$work/before" &&
        [ "$(stat -c %a "$file")" = 400 ] && ends 10 check "$file" cid --password-file "$work/two" --no-renew &&
        ends 11 check "$file" eve --password-file "$work/two" --no-renew
    outcome=$?
    rm -f "$file.lock"
    chmod 600 "$file"
    return "$outcome"
}
holds no_renew_writes_nothing stays_as_it_is
evenly() {
    for each in bob cid dan; do
        ends 10 check "$file" "$each" --password-file "$work/third" --even --no-renew || return 1
    done
    ends 0 check "$file" bob --password-file "$work/two" --even --no-renew && fails 11 NameUnknown 'does not have' check "$file" eve --password-file "$work/two" --even &&
        fails 11 NameUnknown '' check "$work/no-names" eve --password-file "$work/one" --even --rounds 1000 && fails 3 ReadFault 'add makes one' check "$work/none" eve \
        --password-file "$work/one" --even && cmp -s "$file" "$work/before"
}
holds even_has_the_reply_that_there_is_without evenly
# As long for an unknown name as for a wrong password, by processor time: the least of three.
even_time() {
    "${PYTHON:-python3}" - "$work/even" "$work/one" "$work/two" "$home/crates/passdb_command/out/passdb_command" <<'END' >"$work/told"
import resource, subprocess, sys
file, one, two, program = sys.argv[1:]
def run(due, *words):
    before = resource.getrusage(resource.RUSAGE_CHILDREN).ru_utime
    ended = subprocess.run([program, *words], stdin=subprocess.DEVNULL, stderr=subprocess.DEVNULL).returncode
    assert ended == due, (words, ended)
    return resource.getrusage(resource.RUSAGE_CHILDREN).ru_utime - before
run(0, "add", file, "bob", "--password-file", one, "--rounds", "400000")
run(0, "add", file, "sam", "--password-file", one, "--rounds", "1600000")
def least(due, name, *words):
    return min(run(due, "check", file, name, "--password-file", two, *words) for turn in range(3))
few, many = least(10, "bob", "--even"), least(10, "sam", "--even")
# ann would be at bob's place, eve and zoe at sam's
ann, eve, zoe, at_once = least(11, "ann", "--even"), least(11, "eve", "--even"), least(11, "zoe", "--even"), least(11, "eve")
print(f"wrong {few:.3f} and {many:.3f}, unknown {ann:.3f}, {eve:.3f}, {zoe:.3f}, and without --even {at_once:.3f}")
assert 0.6 * few < ann < 1.6 * few and 0.6 * many < eve < 1.6 * many and 0.6 * many < zoe < 1.6 * many and at_once < 0.3 * few
END
}
holds even_takes_as_long_for_an_unknown_name even_time

# --- arguments ---

no_arguments() {
    ends 2 && grep -qx 'passdb: Usage (2): give a subcommand: add, check, change, reset, remove or list; see passdb --help' "$work/told"
}
holds refuses_no_arguments no_arguments
holds refuses_another_subcommand ends 2 frobnicate "$file"
for bad in '' Bob b_b "$(printf 'b%.0s' $(seq 33))" 'b:b' 'b b' 'bö'; do
    holds "refuses_the_name_${bad:-empty}" fails 2 Usage '1 to 32 characters' add "$file" "$bad" --password-file "$work/one"
done
# Whatever is in the place where a script puts a name from outside, check ends with 0 only for the right password of a name.
options_for_names() {
    for each in --help -h --version -V -- - --password-stdin --password-file=/dev/null --rounds --rounds=1000 '' -- "--password-file $work/one" help; do
        for order in first last; do
            code=0
            if [ "$order" = first ]; then
                echo s3cret | "$PASSDB" check "$file" "$each" --password-stdin >"$work/said" 2>"$work/told" || code=$?
            else
                echo s3cret | "$PASSDB" check --password-stdin "$file" "$each" >"$work/said" 2>"$work/told" || code=$?
            fi
            [ "$code" -eq 2 ] || [ "$code" -eq 8 ] || [ "$code" -eq 11 ] || {
                echo "check FILE '$each' ($order): $code" >&2
                return 1
            }
        done
    done
    for each in --even --no-renew --rounds=1000; do
        fails 2 Usage '' remove "$file" bob "$each" && fails 2 Usage '' list "$file" "$each" || return 1
    done
    for each in --even --no-renew; do
        fails 2 Usage '' add "$file" eve "$each" && fails 2 Usage '' change "$file" bob "$each" && fails 2 Usage '' reset "$file" bob "$each" &&
            fails 2 Usage '' check "$file" "$each" && fails 2 Usage '' check "$file" bob "$each=1" || return 1
    done
    fails 2 Usage 'alone' reset "$file" --help && fails 2 Usage '' list "$file" --version && fails 2 Usage '' list --version && fails 2 Usage 'alone' remove "$file" --help && fails 2 Usage 'alone' check "$file" bob --help && fails 2 Usage 'alone' add "$file" -h &&
        ends 0 check --help && ends 0 --help && ends 0 --version
}
holds a_name_that_is_an_option_is_refused options_for_names
dashed() { ends 0 add --password-file "$work/one" --rounds 1000 "$file" -- -x && ends 0 remove "$file" -- -x; }
holds takes_a_name_that_begins_with_a_dash dashed
for bad in 0 999 10000001 -1 x ''; do
    holds "refuses_${bad:-empty}_rounds" fails 2 Usage 'from 1000 to 10000000' add "$file" eve --password-file "$work/one" "--rounds=$bad"
done
not_utf8_argument() { fails 2 Usage 'not UTF-8' check "$file" "$(printf 'b\377')" && fails 2 Usage 'not UTF-8' list "$(printf 'b\377')"; }
holds an_argument_that_is_not_utf_8_is_told not_utf8_argument
holds refuses_two_origins ends 2 check "$file" bob --password-file "$work/one" --password-env HOME
holds refuses_one_input_for_two_passwords fails 2 Usage 'standard input' change "$file" bob --password-stdin --new-password-stdin
same_origin() {
    cp "$file" "$work/before" && ln "$work/two" "$work/hard-link" && ln -s two "$work/soft-link" || return 1
    for other in "$work/two" "$work/hard-link" "$work/soft-link"; do
        fails 2 Usage 'come from one file' change "$file" bob --password-file "$work/two" --new-password-file "$other" || return 1
    done
    export WORD='a longer one' && fails 2 Usage 'come from one file' change "$file" bob --password-env WORD --new-password-env WORD &&
        cmp -s "$file" "$work/before" && ends 2 change "$file" bob --password-file /dev/stdin --new-password-stdin
}
holds refuses_one_origin_for_two_passwords same_origin
# What is not there is told before a password is asked for.
told_first() {
    fails 11 NameUnknown '' check "$file" eve && fails 11 NameUnknown '' change "$file" eve && fails 12 NameExists '' add "$file" bob &&
        fails 3 ReadFault 'add makes one' check "$work/none" bob && fails 3 ReadFault 'add makes one' change "$work/none" bob &&
        fails 4 WriteFault 'No such file' add "$work/no/users" bob
}
holds what_is_not_there_is_told_before_a_question told_first
holds says_that_there_is_no_password fails 8 PasswordMissing 'no terminal to ask at: give --password-file' check "$file" bob
holds says_that_there_is_no_new_password fails 9 NewPasswordMissing 'no terminal to ask at: give --password-file' add "$file" eve
holds says_which_options_give_a_new_password fails 9 NewPasswordMissing 'give --new-password-file' change "$file" bob --password-file "$work/one"
# An even test tells nothing of the name, not even before a password is asked for.
holds an_even_test_asks_for_any_name fails 8 PasswordMissing '' check --even "$file" eve

# --- passwords ---

holds refuses_an_empty_new_password fails 22 PasswordUnusable 'empty' add "$file" eve --password-file "$work/empty"
printf 'caf\351\n' >"$work/latin"
holds refuses_a_password_that_is_not_utf_8 fails 22 PasswordUnusable 'not UTF-8' add "$file" eve --password-file "$work/latin"
head -c 1025 /dev/zero | tr '\0' a >"$work/long"
holds refuses_a_password_of_1025_octets fails 22 PasswordUnusable '1,024' add "$file" eve --password-file "$work/long"
holds refuses_a_password_file_that_is_not_there fails 3 ReadFault 'No such file' add "$file" eve --password-file "$work/none"
accents() {
    printf 'ça va, « oui » : $x\n' >"$work/odd"
    ends 0 add "$file" odd --password-file "$work/odd" --rounds 1000 && is_derived odd 'ça va, « oui » : $x' 1000 && ends 0 remove "$file" odd
}
holds takes_any_utf_8 accents

# --- files ---

holds says_that_there_is_no_file fails 3 ReadFault 'add makes one' check "$work/none" bob --password-file "$work/one"
none_made() { [ ! -e "$work/none" ] && nothing_beside "$work/none"; }
holds makes_no_file_but_by_add none_made
holds refuses_a_folder fails 3 ReadFault 'is not a file' list "$work"
holds refuses_a_device fails 3 ReadFault 'is not a file' list /dev/zero
mkfifo "$work/pipe"
holds refuses_a_pipe fails 3 ReadFault 'is not a file' list "$work/pipe"
# The file that has the text $1 is refused with the text $2, and is as it was.
malformed() {
    printf '%b' "$1" >"$work/bad"
    cp "$work/bad" "$work/before"
    fails 6 Malformed "$work/bad is not a password file: $2" add "$work/bad" eve --password-file "$work/one" &&
        cmp -s "$work/bad" "$work/before" && nothing_beside "$work/bad"
}
entry=$(head -n 1 "$file")
hash=${entry#*:}
# The password of that.
echo 'a longer one' >"$work/hashed"
holds refuses_an_empty_line malformed '\n' 'line 1 is not NAME:HASH'
holds refuses_another_text malformed 'root:x:0:0:root:/root:/bin/sh\n' 'line 1 is not NAME:HASH'
holds refuses_nul malformed 'a\0000b\n' 'line 1 is not NAME:HASH'
holds refuses_octets_that_are_no_text malformed '\0377\0376\n' 'it is not UTF-8'
holds refuses_a_last_line_without_line_feed malformed "$entry" 'line 1 has no LF at its end'
holds refuses_lines_that_end_in_cr_lf malformed "$entry\\r\\n" 'line 1 ends with CR LF'
holds refuses_a_name_twice malformed "$entry\\n$entry\\n" 'line 2 has a name that does not come after'
holds refuses_names_that_are_not_sorted malformed "a:$hash\\nc:$hash\\nb:$hash\\nd:$hash\\n" 'line 3 has a name that does not come after'
holds says_which_line_is_wrong malformed "a:$hash\\nb:$hash\\nc d:$hash\\n" 'line 3 is not NAME:HASH'
huge() {
    head -c 67108865 /dev/zero >"$work/huge"
    fails 6 Malformed '67,108,864' list "$work/huge"
    outcome=$?
    rm -f "$work/huge"
    return "$outcome"
}
holds refuses_67108865_octets huge
# A file that is as long as may be read does not grow: no later run would read it.
full_length() {
    "${PYTHON:-python3}" - "$hash" "$work/longest" <<'END'
import sys
hash, path = sys.argv[1:]
most, line = 67108864, len(hash) + 10
with open(path, "w") as file:
    for number in range(most // line - 1):
        file.write(f"{number:08d}:{hash}\n")
    # so that no further entry fits
    file.write(f"{number + 1:08d}{'0' * min(24, most % line)}:{hash}\n")
END
    size=$(stat -c %s "$work/longest")
    fails 4 WriteFault '67,108,864' add "$work/longest" zed --password-file "$work/one" --rounds 1000 && [ "$(stat -c %s "$work/longest")" -eq "$size" ] &&
        nothing_beside "$work/longest" && ends 0 remove "$work/longest" 00000000
    outcome=$?
    rm -f "$work/longest"
    return "$outcome"
}
holds a_file_never_outgrows_what_is_read full_length
not_utf8_folder() {
    odd=$work/$(printf 'caf\351')
    mkdir "$odd" && (cd "$odd" && fails 3 ReadFault 'not UTF-8' add users bob --password-file "$work/one" --rounds 1000) && [ -z "$(ls -A "$odd")" ]
}
holds a_folder_that_is_not_utf_8_is_refused_at_the_first_add not_utf8_folder
link() {
    ln -s users "$work/link"
    ends 0 add "$work/link" lin --password-file "$work/one" --rounds 1000 && [ -L "$work/link" ] && grep -q '^lin:' "$file" && ends 0 remove "$file" lin
}
holds a_link_stays_one link
dangling() {
    ln -s nowhere "$work/dangling"
    fails 3 ReadFault 'dangling' add "$work/dangling" lin --password-file "$work/one" && [ ! -e "$work/nowhere" ]
}
holds refuses_a_link_to_nothing dangling
odd_path() {
    mkdir "$work/a b
c"
    ends 0 add "$work/a b
c/-users.db" bob --password-file "$work/one" --rounds 1000 && (cd "$work/a b
c" && ends 0 check ./-users.db bob --password-file "$work/one" --rounds 1000 && nothing_beside "./-users.db")
}
holds takes_odd_paths odd_path
holds says_that_the_folder_is_not_there fails 4 WriteFault 'No such file' add "$work/no/users" bob --password-file "$work/one"
umasked() { (umask 0 && ends 0 add "$work/masked" bob --password-file "$work/one" --rounds 1000) && [ "$(stat -c %a "$work/masked")" = 600 ]; }
holds is_for_its_owner_alone_under_any_umask umasked

# --- two runs, locks and signals ---

both_kept() {
    rm -f "$work/shared"
    for number in 1 2 3 4 5 6 7 8; do
        setsid -w "$PASSDB" add "$work/shared" "name-$number" --password-file "$work/one" --rounds 20000 2>>"$work/told" </dev/null &
    done
    wait
    [ "$(wc -l <"$work/shared")" -eq 8 ] && nothing_beside "$work/shared"
}
holds runs_at_the_same_time_lose_nothing both_kept
many_names() {
    awk -F: 'NR == 1 { hash = $2; for (i = 0; i < 100000; i++) printf "m%06d:%s\n", i, hash }' "$file" >"$work/many" &&
        ends 0 add "$work/many" zed --password-file "$work/one" --rounds 1000 && ends 0 remove "$work/many" m050000 &&
        ends 0 list "$work/many" && [ "$(wc -l <"$work/said")" -eq 100000 ] && LC_ALL=C sort -c "$work/said" && nothing_beside "$work/many"
}
holds a_hundred_thousand_names many_names
# 10 MB are read, and there is room for 30 MB in all.
out_of_memory() {
    cp "$work/many" "$work/before"
    for each in 'list' 'check m000001 --no-renew' 'check m000001 --even' 'check eve --even' 'reset m000001' 'remove m000001' 'add yak'; do
        code=0
        # shellcheck disable=SC2086 # two words or three
        set -- $each
        subcommand=$1
        shift
        case $subcommand in list | remove) ;; *) set -- "$@" --password-file "$work/one" ;; esac
        # shellcheck disable=SC3045 # dash has it
        (ulimit -v 30000 && exec "$home/crates/passdb_command/out/passdb_command" "$subcommand" "$work/many" "$@") >"$work/said" 2>"$work/told" </dev/null || code=$?
        [ "$code" -eq 7 ] && grep -q '^passdb: Memory (7): ' "$work/told" && cmp -s "$work/many" "$work/before" && nothing_beside "$work/many" || return 1
    done
}
holds out_of_memory_is_told out_of_memory
# Holds the lock of the file $1 for $2 seconds, as another run does.
hold_lock() {
    command -v flock >/dev/null || {
        echo "skipped $name: there is no flock"
        return 1
    }
    flock "$1.lock" sleep "$2" &
    holder=$!
    until ! flock -n "$1.lock" true; do sleep 0.05; done
}
locked() {
    hold_lock "$file" 30 || return 0
    cp "$file" "$work/before"
    fails 5 Locked 'another run has been changing' add "$file" eve --password-file "$work/one" && cmp -s "$file" "$work/before" && [ -e "$file.lock" ] &&
        ! grep -q 'rm ' "$work/told" && fails 5 Locked '' reset "$file" bob --password-file "$work/one" && cmp -s "$file" "$work/before"
    outcome=$?
    kill "$holder" && wait "$holder" || :
    rm -f "$file.lock"
    return "$outcome"
}
holds a_lock_that_is_kept_is_told locked
# A password that cannot be read twice is read before the lock is waited for.
waits() {
    for origin in --password-stdin '--password-file /dev/stdin' '--password-file /dev/fd/3' "--password-file $work/fifo"; do
        hold_lock "$file" 2 || return 0
        case $origin in
            *fifo) mkfifo "$work/fifo" && { cat "$work/one" >"$work/fifo" & } || return 1 ;;
        esac
        code=0
        # shellcheck disable=SC2086 # two words
        "$PASSDB" add "$file" waited $origin --rounds 1000 <"$work/one" 3<"$work/one" >"$work/said" 2>"$work/told" || code=$?
        [ "$code" -eq 0 ] && is_derived waited s3cret 1000 && ends 0 remove "$file" waited && nothing_beside "$file" || return 1
        wait "$holder" || :
        rm -f "$work/fifo"
    done
}
holds a_password_of_a_pipe_waits_for_a_lock waits
# A lock ends with the process that has it, whatever ended that.
killed_lock() {
    : >"$file.lock"
    ends 0 add "$file" killed --password-file "$work/one" --rounds 1000 && ends 0 remove "$file" killed && nothing_beside "$file"
}
holds a_lock_of_a_killed_run_stops_nobody killed_lock
many_logins() {
    cp "$file" "$work/logins"
    : >"$work/lines"
    logins=
    for number in 1 2 3 4 5 6 7 8 9 10 11 12; do
        {
            setsid -w "$PASSDB" check "$work/logins" bob --password-file "$work/two" --rounds 20000 2>>"$work/lines" </dev/null && echo "$number" >>"$work/done"
        } &
        logins="$logins $!"
    done
    # shellcheck disable=SC2086
    wait $logins
    [ "$(wc -l <"$work/done")" -eq 12 ] && ! grep -q 'rm ' "$work/lines" && grep -q '^bob:.*i=20000,' "$work/logins" && nothing_beside "$work/logins"
}
holds logins_at_the_same_time_are_told_nothing_to_remove many_logins
reads_on() {
    hold_lock "$file" 30 || return 0
    ends 0 list "$file" && ends 0 check "$file" bob --password-file "$work/two" --rounds 1000
    outcome=$?
    kill "$holder" && wait "$holder" || :
    rm -f "$file.lock"
    return "$outcome"
}
holds a_lock_stops_no_reading reads_on
# Something else in the lock's place stays.
odd_locks() {
    for kind in folder pipe link; do
        case $kind in
            folder) mkdir "$file.lock" ;;
            pipe) mkfifo "$file.lock" ;;
            link) ln -s /nowhere "$file.lock" ;;
        esac
        code=0
        echo s3cret | timeout 10 "$PASSDB" add "$file" eve --password-stdin >"$work/said" 2>"$work/told" || code=$?
        [ "$code" -eq 4 ] && grep -q 'is no regular file' "$work/told" && { [ -e "$file.lock" ] || [ -L "$file.lock" ]; } && [ ! -e /nowhere ] || return 1
        rm -rf "$file.lock"
    done
}
holds locks_that_are_no_files odd_locks
# Waits until a program adds eve to the file $1, and leaves its number in $program.
program_adds_eve() {
    tries=0
    program=
    until [ -n "$program" ] || [ "$tries" -ge 100 ]; do
        sleep 0.1
        tries=$((tries + 1))
        [ ! -e "$1.lock" ] || program=$(ps -eo pid=,args= | awk -v words="$1 eve" '/\/passdb_command / && !/awk/ && index($0, words) { print $1; exit }')
    done
    [ -n "$program" ]
}
# The signal $1 to the run, or to the program alone where $2 is `program`, while it derives.
signalled() {
    cp "$file" "$work/before"
    setsid -w "$PASSDB" add --password-file "$work/one" --rounds 10000000 "$file" eve >"$work/said" 2>"$work/told" </dev/null &
    run=$!
    program_adds_eve "$file" || return 1
    if [ "$2" = program ]; then
        kill "-$1" "$program"
    else
        kill "-$1" "$(ps -o ppid= -p "$program" | tr -d ' ')"
    fi
    code=0
    wait "$run" || code=$?
    [ "$code" -ge 128 ] && cmp -s "$file" "$work/before" && nothing_left_beside "$file"
}
# Where there is no flock, the file of the lock stays, which nobody has.
nothing_left_beside() {
    command -v flock >/dev/null || rm -f "$1.lock"
    nothing_beside "$1"
}
holds an_interrupted_run_leaves_nothing signalled TERM run
holds a_killed_program_leaves_nothing signalled KILL program
# The file is the second argument, also where it is named like an option, or like a word that this script uses.
odd_files() {
    mkdir "$work/odd-files" && for odd_file in -users value variable --rounds; do
        (
            cd "$work/odd-files" && ends 0 add --password-file "$work/one" --rounds 1000 -- "$odd_file" bob || exit 1
            setsid -w "$PASSDB" add --rounds 10000000 --password-file "$work/one" -- "$odd_file" eve >"$work/said" 2>"$work/told" </dev/null &
            run=$!
            program_adds_eve "$odd_file" || exit 1
            kill -KILL "$program"
            wait "$run" && exit 1
            nothing_left_beside "./$odd_file"
        ) || return 1
    done
}
holds a_killed_program_leaves_nothing_of_odd_files odd_files
# Somebody who may write there has put a pipe in the place of the lock.
pipe_for_lock() {
    setsid -w "$PASSDB" add --password-file "$work/one" --rounds 10000000 "$file" eve >"$work/said" 2>"$work/told" </dev/null &
    run=$!
    program_adds_eve "$file" || return 1
    script=$(ps -o ppid= -p "$program" | tr -d ' ')
    rm "$file.lock" && mkfifo "$file.lock" && kill -TERM "$script"
    tries=0
    while kill -0 "$script" 2>/dev/null && [ "$tries" -lt 50 ]; do
        sleep 0.1
        tries=$((tries + 1))
    done
    outcome=0
    [ "$tries" -lt 50 ] || outcome=1
    kill -KILL "$script" 2>/dev/null || :
    wait "$run" || :
    [ -p "$file.lock" ] || outcome=1
    rm -f "$file.lock"
    return "$outcome"
}
holds a_pipe_for_a_lock_holds_nothing_up pipe_for_lock
# The lock of another run, whatever removed its own, is not released.
anothers_lock() {
    setsid -w "$PASSDB" add --password-file "$work/one" --rounds 2000000 "$file" eve >"$work/said" 2>"$work/told" </dev/null &
    run=$!
    program_adds_eve "$file" || return 1
    rm "$file.lock" && : >"$file.lock" && wait "$run" && [ -e "$file.lock" ] && rm "$file.lock" && ends 0 remove "$file" eve
}
holds the_lock_of_another_run_stays anothers_lock
# An entry is made anew in about the time of one derivation under the new rounds: the least of three.
once_derived() {
    "${PYTHON:-python3}" - "$file" "$work/one" "$home/crates/passdb_command/out/passdb_command" "$work/timed" <<'END' >"$work/told"
import resource, shutil, subprocess, sys
file, word, program, timed = sys.argv[1:]
def taken(*words):
    before = resource.getrusage(resource.RUSAGE_CHILDREN).ru_utime
    subprocess.run([program, *words, "--password-file", word], check=True, stdin=subprocess.DEVNULL)
    return resource.getrusage(resource.RUSAGE_CHILDREN).ru_utime - before
made, renewed = [], []
for turn in range(3):
    shutil.copy(file, timed)
    made.append(taken("add", timed, f"timed-{turn}", "--rounds", "600000"))
    taken("add", timed, "early", "--rounds", "1000")
    renewed.append(taken("check", timed, "early", "--rounds", "600000"))
print(f"an entry {min(made):.3f} s, a login that renews {min(renewed):.3f} s")
assert min(renewed) < 1.5 * min(made)
END
}
holds a_login_that_renews_derives_once once_derived

# --- what is refused by the system ---

closed() {
    for which in '>&-' '2>&-' '<&-' '>&- 2>&- <&-'; do
        code=0
        sh -c "setsid -w \"\$PASSDB\" check \"\$1\" bob --password-file \"\$2\" --rounds 1000 $which" sh "$file" "$work/two" || code=$?
        [ "$code" -eq 0 ] || {
            echo "closed $which: $code" >&2
            return 1
        }
    done
    code=0
    setsid -w "$PASSDB" list "$file" >&- 2>"$work/told" || code=$?
    [ "$code" -eq 4 ] && cmp -s "$file" "$work/closed"
}
cp "$file" "$work/closed"
holds closed_descriptors_are_no_harm closed
full_output() {
    [ -w /dev/full ] || return 0
    code=0
    setsid -w "$PASSDB" list "$file" >/dev/full 2>"$work/told" || code=$?
    [ "$code" -eq 4 ]
}
holds a_full_output_is_told full_output
full_disk() {
    mkdir "$work/disk"
    mount -t tmpfs -o size=8k tmpfs "$work/disk" 2>/dev/null || {
        echo "skipped a_full_disk: nothing can be mounted"
        return 0
    }
    outcome=1
    cp "$file" "$work/disk/users"
    head -c 8192 /dev/zero >"$work/disk/filler" 2>/dev/null || :
    fails 4 WriteFault 'No space' add "$work/disk/users" eve --password-file "$work/one" --rounds 1000 &&
        cmp -s "$file" "$work/disk/users" && outcome=0
    umount "$work/disk"
    return "$outcome"
}
holds a_full_disk_leaves_the_file full_disk
# No file may grow: neither can the file be written nor what is said of that, and nobody is killed by it.
no_file_may_grow() {
    cp "$file" "$work/stays"
    code=0
    (
        ulimit -f 0
        setsid -w "$PASSDB" add "$work/stays" eve --password-file "$work/one" --rounds 1000 >/dev/null 2>"$work/nothing-said" </dev/null
    ) || code=$?
    [ "$code" -eq 4 ] && cmp -s "$file" "$work/stays" && nothing_beside "$work/stays"
}
holds a_limit_of_file_sizes_leaves_the_file no_file_may_grow
read_only() {
    [ "$(id -u)" -eq 0 ] && command -v setpriv >/dev/null || {
        echo "skipped read_only: it is tried as root, who can be another user"
        return 0
    }
    mkdir -m 755 "$work/theirs"
    cp "$file" "$work/theirs/users"
    chmod 644 "$work/theirs/users"
    chmod 755 "$work"
    chmod 644 "$work/one" "$work/two"
    as_nobody() {
        code=0
        setpriv --reuid=65534 --regid=65534 --clear-groups "$home/crates/passdb_command/out/passdb_command" "$@" >"$work/said" 2>"$work/told" </dev/null || code=$?
    }
    # Where nobody may not reach the program it cannot be tried.
    as_nobody --version
    [ "$code" -eq 0 ] || {
        echo "skipped read_only: the user nobody may not run the program"
        return 0
    }
    as_nobody add "$work/theirs/users" eve --password-file "$work/one" --rounds 1000
    [ "$code" -eq 4 ] && grep -q 'Permission denied' "$work/told" || return 1
    # The password is right though its entry cannot be made anew.
    as_nobody check "$work/theirs/users" bob --password-file "$work/two" --rounds 5000
    [ "$code" -eq 0 ] && grep -q 'not made anew' "$work/told" || return 1
    as_nobody check "$work/theirs/users" bob --password-file "$work/two" --rounds 5000 --no-renew
    [ "$code" -eq 0 ] && [ ! -s "$work/told" ] || return 1
    chmod 600 "$work/theirs/users"
    as_nobody list "$work/theirs/users"
    [ "$code" -eq 3 ] && cmp -s "$file" "$work/theirs/users"
}
holds another_user_is_refused read_only
other_folder() { (cd / && ends 0 check "$file" bob --password-file "$work/two" --rounds 1000); }
holds runs_from_any_folder other_folder
linked_command() { ln -s "$PASSDB" "$work/command" && PASSDB=$work/command ends 0 list "$file"; }
holds runs_by_a_link linked_command

# --- at a terminal ---

asks() {
    code=0
    "$home/tests/shared/at_terminal.py" "$@" >"$work/told" || code=$?
}
asks_for_one() {
    asks --answer 'a longer one' -- "$PASSDB" check "$file" bob --rounds 1000
    [ "$code" -eq 0 ] && grep -q 'echo off while asking, on afterwards$' "$work/told" && ! grep -q 'a longer one' "$work/told" &&
        grep -q "Password of bob in $file: " "$work/told"
}
holds asks_for_a_password asks_for_one
asks_for_both() {
    asks --answer 'a longer one' --answer other --answer other -- "$PASSDB" change "$file" bob --rounds 1000
    [ "$code" -eq 0 ] && is_derived bob other 1000
}
holds asks_for_both_passwords asks_for_both
asks_twice() {
    asks --answer new --answer new -- "$PASSDB" add "$file" eve --rounds 1000
    [ "$code" -eq 0 ] && is_derived eve new 1000
}
holds asks_for_a_new_password_twice asks_twice
asks_for_the_new_one_alone() {
    asks --answer newer --answer newer -- "$PASSDB" reset "$file" eve --rounds 1000
    [ "$code" -eq 0 ] && is_derived eve newer 1000 && grep -q "New password of eve in $file: " "$work/told" && ! grep -q '^Password' "$work/told"
}
holds reset_asks_for_the_new_password_alone asks_for_the_new_one_alone
asks_for_any_name() {
    asks --answer other -- "$PASSDB" check --even "$file" nobody
    [ "$code" -eq 11 ] && grep -q "Password of nobody in $file: " "$work/told" && grep -q '^passdb: NameUnknown (11): ' "$work/told"
}
holds an_even_test_asks_for_the_password_of_any_name asks_for_any_name
asks_and_differ() {
    asks --answer one --answer two -- "$PASSDB" add "$file" fay --rounds 1000
    [ "$code" -eq 22 ] && grep -q differ "$work/told" && ! grep -q '^fay:' "$file"
}
holds new_passwords_that_differ asks_and_differ
signal_while_asking() {
    asks --signal INT -- "$PASSDB" check "$file" bob
    [ "$code" -eq 130 ] && grep -q 'echo off while asking, on afterwards$' "$work/told"
}
holds echo_is_back_after_a_signal signal_while_asking
end_of_input_at_the_question() {
    asks --answer "$(printf '\004')" -- "$PASSDB" check "$file" bob
    [ "$code" -eq 8 ] && grep -q '^passdb: PasswordMissing (8): ' "$work/told"
}
holds ctrl_d_gives_up end_of_input_at_the_question
stopped_while_asked() {
    command -v bash >/dev/null || {
        echo "skipped $name: there is no bash"
        return 0
    }
    echo typed-secret >"$work/typed"
    ends 0 add "$file" gil --password-file "$work/typed" --rounds 1000 &&
        "$home/tests/shared/stopped_at_terminal.py" "bash --norc --noprofile -i" "$PASSDB check $file gil --rounds 1000" >"$work/told"
}
holds echo_is_off_after_ctrl_z_and_fg stopped_while_asked
# Before version 5.1 bash wrote here-documents to files of TMPDIR, as it does under this variable.
no_file_of_a_password() {
    command -v bash >/dev/null && [ -f "$home/passdb" ] || {
        echo "skipped $name: there is no bash"
        return 0
    }
    mkdir "$work/no_files" && chmod 555 "$work/no_files" || return 1
    asks --answer 'typed-secret' -- env BASH_COMPAT=50 "TMPDIR=$work/no_files/none" bash "$PASSDB" check "$file" gil --rounds 1000
    [ "$code" -eq 0 ]
}
holds no_password_in_a_file_of_TMPDIR no_file_of_a_password
closed_standard_input() {
    "$PASSDB" list "$file" <&- >"$work/said" 2>"$work/told" && cut -f 1 "$work/said" | grep -qx gil
}
holds closed_standard_input closed_standard_input
closed_input() {
    code=0
    setsid -w "$PASSDB" check "$file" gil --password-stdin <&- >"$work/said" 2>"$work/told" || code=$?
    [ "$code" -eq 3 ] && grep -q '^passdb: ReadFault (3): .*Bad file descriptor' "$work/told"
}
holds a_closed_standard_input_is_no_empty_one closed_input
few_descriptors() {
    # shellcheck disable=SC2016
    setsid -w sh -c 'ulimit -S -n 12 && exec sh "$@"' sh "$PASSDB" list "$file" </dev/null >"$work/said" 2>"$work/told" && cut -f 1 "$work/said" | grep -qx gil
}
holds few_descriptors few_descriptors

# --- the file that is replaced ---

keeps_attributes() {
    ends 0 add "$work/service" ann --password-file "$work/one" --rounds 1000 && [ "$(stat -c %a "$work/service")" = 600 ] || return 1
    chmod 646 "$work/service" && ends 0 add "$work/service" bob --password-file "$work/one" --rounds 1000 &&
        [ "$(stat -c %a "$work/service")" = 640 ] || return 1
    [ "$(id -u)" -eq 0 ] || {
        echo "skipped $name: only root can give files away"
        return 0
    }
    chown 12345:12346 "$work/service" && ends 0 check "$work/service" ann --password-file "$work/one" --rounds 3000 &&
        [ "$(stat -c '%u %g %a' "$work/service")" = '12345 12346 640' ] && grep -q '^ann:.*i=3000,' "$work/service" &&
        nothing_beside "$work/service"
}
holds owner_and_group_stay keeps_attributes
# A file that its owner may only read is writable for the owner afterwards; another hard link keeps what the file was.
read_only_and_linked() {
    ends 0 add "$work/kept" ann --password-file "$work/one" --rounds 1000 && ln "$work/kept" "$work/kept-link" && chmod 400 "$work/kept" &&
        ends 0 remove "$work/kept" ann && [ "$(stat -c %a "$work/kept")" = 600 ] && [ ! -s "$work/kept" ] && grep -q '^ann:' "$work/kept-link"
}
holds a_hard_link_keeps_what_the_file_was read_only_and_linked
mounted_file() {
    ends 0 add "$work/mounted" ann --password-file "$work/one" --rounds 1000 && cp "$work/mounted" "$work/before" || return 1
    mount --bind "$work/mounted" "$work/mounted" 2>/dev/null || {
        echo "skipped $name: nothing can be mounted"
        return 0
    }
    outcome=0
    fails 4 WriteFault 'busy' add "$work/mounted" bob --password-file "$work/one" --rounds 1000 && ends 0 list "$work/mounted" || outcome=1
    umount "$work/mounted"
    cmp -s "$work/mounted" "$work/before" && nothing_beside "$work/mounted" && return "$outcome"
}
holds a_file_that_is_a_mount_is_as_it_was mounted_file
# Of a user who may write in the folder, and not give the file back to its owner.
keeps_or_fails() {
    [ "$(id -u)" -eq 0 ] && command -v setpriv >/dev/null || {
        echo "skipped $name: only root can run as another user"
        return 0
    }
    mkdir "$work/for_all" && chmod 777 "$work/for_all" && chmod 755 "$work" && cp "$work/service" "$work/for_all/users" &&
        cp "$home/crates/passdb_command/out/passdb_command" "$work/for_all/program" && chmod 644 "$work/for_all/users" &&
        cp "$work/one" "$work/for_all/one" && chmod 644 "$work/for_all/one" && cp "$work/for_all/users" "$work/before" || return 1
    for each in 'add eve' 'reset bob'; do
        code=0
        setpriv --reuid=65534 --regid=65534 --clear-groups "$work/for_all/program" "${each% *}" "$work/for_all/users" "${each#* }" \
            --password-file "$work/for_all/one" --rounds 1000 >"$work/said" 2>"$work/told" </dev/null || code=$?
        [ "$code" -eq 4 ] && cmp "$work/before" "$work/for_all/users" && nothing_beside "$work/for_all/users" || return 1
    done
}
holds a_file_of_another_owner_stays keeps_or_fails
# Where others could put something else in the place of the file, nothing is asked or written; a login holds all the same.
hands_of_others() {
    [ "$(id -u)" -eq 0 ] || {
        echo "skipped $name: only root can give folders away"
        return 0
    }
    mkdir -m 755 "$work/bobs" "$work/grouped" && chown 1234 "$work/bobs" && chgrp 1234 "$work/grouped" && chmod 775 "$work/grouped" && mkdir -m 777 "$work/for_others" &&
        chmod 777 "$work/for_others" && ln -s bobs "$work/way" && cp "$work/service" "$work/bobs/users" && chown 1234 "$work/bobs/users" || return 1
    for each in "bobs/users:belongs to another user" "way/users:belongs to another user" "grouped/users:the group of the number 1234 may write" \
        "for_others/users:everybody may write"; do
        fails 4 WriteFault "${each#*:}" add "$work/${each%%:*}" eve && fails 4 WriteFault "${each#*:}" reset "$work/${each%%:*}" ann || return 1
    done
    grep -qF "chmod +t '$work/for_others'" "$work/told" && cp "$work/bobs/users" "$work/before" &&
        ends 0 check "$work/bobs/users" ann --password-file "$work/one" --rounds 5000 && grep -q 'not made anew' "$work/told" &&
        cmp -s "$work/bobs/users" "$work/before" && nothing_beside "$work/bobs/users" && nothing_beside "$work/grouped/users" || return 1
    chmod +t "$work/grouped" && ends 0 add "$work/grouped/users" eve --password-file "$work/one" --rounds 1000
}
holds nothing_is_written_in_the_hands_of_others hands_of_others
# With an access control list the group's bits of the mode are what others may do at most, and the group itself may have less.
access_control_list() {
    ends 0 add "$work/listed" ann --password-file "$work/one" --rounds 1000 || return 1
    # rw for the owner, r for user 33, nothing for the group, r at most, nothing for others
    "${PYTHON:-python3}" - "$work/listed" 2>/dev/null <<'END' || {
import os, struct, sys
none = 0xffffffff
entries = [(1, 6, none), (2, 4, 33), (4, 0, none), (16, 4, none), (32, 0, none)]
os.setxattr(sys.argv[1], "system.posix_acl_access", struct.pack("<I", 2) + b"".join(struct.pack("<HHI", *each) for each in entries))
END
        echo "skipped $name: there are no access control lists here"
        return 0
    }
    case $(LC_ALL=C ls -ld "$work/listed") in
        -rw-r-----+*) ;;
        *)
            echo "skipped $name: ls does not show access control lists"
            return 0
            ;;
    esac
    ends 0 add "$work/listed" bob --password-file "$work/one" --rounds 1000 && [ "$(stat -c %a "$work/listed")" = 600 ] &&
        grep -q 'access control list, which is not kept' "$work/told" && chmod 640 "$work/listed" &&
        ends 0 add "$work/listed" cid --password-file "$work/one" --rounds 1000 && [ "$(stat -c %a "$work/listed")" = 640 ] && [ ! -s "$work/told" ]
}
holds an_access_control_list_is_no_mode access_control_list
# What draws nothing needs no random octets, and a right password is right where there are none.
without_random_octets() {
    command -v cc >/dev/null || {
        echo "skipped $name: there is no C compiler"
        return 0
    }
    cat >"$work/random.c" <<'END'
#define _GNU_SOURCE
#include <dlfcn.h>
#include <errno.h>
#include <fcntl.h>
#include <stdarg.h>
#include <string.h>
#define OPEN(name) \
int name(const char *path, int flags, ...) { \
    va_list more; va_start(more, flags); int mode = va_arg(more, int); va_end(more); \
    if (strstr(path, "random")) return errno = ENOENT, -1; \
    int (*next)(const char *, int, ...) = (int (*)(const char *, int, ...))dlsym(RTLD_NEXT, #name); \
    return next(path, flags, mode); }
OPEN(open)
OPEN(open64)
END
    cc -shared -fPIC -o "$work/random.so" "$work/random.c" -ldl || return 1
    undrawn() {
        code=0
        LD_PRELOAD=$work/random.so "$home/crates/passdb_command/out/passdb_command" "$@" >"$work/said" 2>"$work/told" </dev/null || code=$?
    }
    undrawn check "$file" bob --password-file "$work/three" --rounds 1000
    [ "$code" -eq 0 ] && [ ! -s "$work/told" ] || return 1
    cp "$file" "$work/before"
    undrawn check "$file" bob --password-file "$work/three" --rounds 2000
    [ "$code" -eq 0 ] && grep -q 'the password is right; its entry was not made anew: the system gave no random octets' "$work/told" &&
        cmp -s "$file" "$work/before" || return 1
    undrawn add "$file" none --password-file "$work/one" --rounds 1000
    [ "$code" -eq 20 ] && cmp -s "$file" "$work/before" || return 1
    undrawn remove "$file" bob
    [ "$code" -eq 0 ] && cp "$work/before" "$file"
}
echo other >"$work/three"
holds only_a_new_entry_needs_random_octets without_random_octets
salts() {
    for each in one two three; do ends 0 add "$work/salted" "$each" --password-file "$work/one" --rounds 1000 || return 1; done
    [ "$(cut -d'$' -f4 "$work/salted" | sort -u | wc -l)" -eq 3 ]
}
holds each_entry_has_a_salt_of_its_own salts
full_disk_leaves_no_lock() {
    mkdir -p "$work/small" && mount -t tmpfs -o size=16k none "$work/small" 2>/dev/null || {
        echo "skipped $name: no file system can be mounted here"
        return 0
    }
    full=0
    ends 0 add "$work/small/users" ann --password-file "$work/one" --rounds 1000 || full=1
    cat /dev/zero >"$work/small/filler" 2>/dev/null || :
    ends 4 add "$work/small/users" bob --password-file "$work/one" --rounds 1000 && nothing_beside "$work/small/users" || full=1
    rm "$work/small/filler"
    ends 0 add "$work/small/users" bob --password-file "$work/one" --rounds 1000 || full=1
    umount "$work/small"
    return "$full"
}
holds a_full_disk_leaves_no_lock full_disk_leaves_no_lock
part_of_others() {
    code=0
    sh -c 'echo theirs >"$1.part-$$"; exec "$0" add "$1" hal --password-file "$2" --rounds 1000' \
        "$home/crates/passdb_command/out/passdb_command" "$work/service" "$work/one" >"$work/said" 2>"$work/told" </dev/null || code=$?
    [ "$code" -eq 4 ] && grep -qx theirs "$work/service".part-* && rm "$work/service".part-* && nothing_beside "$work/service"
}
holds a_part_file_of_others_is_kept part_of_others

# --- what is printed ---

# Nothing that may be a password is printed, and no other user reads one among the arguments of a run that goes on.
passwords_unseen() {
    for each in '--password hunter2' '--password=hunter2' '--new-password hunter2' '--passin pass:hunter2' 'hunter2' '--password-stdin=hunter2'; do
        # shellcheck disable=SC2086 # two words
        fails 2 Usage '' check "$file" bob $each && ! grep -q hunter2 "$work/told" || return 1
    done
}
holds a_password_among_the_arguments_is_not_printed passwords_unseen
# Escapes that would clear a terminal, and a mark that turns the direction of text.
escapes() {
    odd=$(printf '%s/a\033[2J\342\200\256b' "$work")
    ends 3 list "$odd" && grep -qF 'a\u{1b}[2J\u{202e}b' "$work/told" && ! LC_ALL=C grep -q '[^ -~]' "$work/told" || return 1
    echo no >"$odd" && ends 6 list "$odd" && ! LC_ALL=C grep -q '[^ -~]' "$work/told" && rm "$odd" && mkdir "$odd" && ends 3 list "$odd" &&
        ! LC_ALL=C grep -q '[^ -~]' "$work/told" && rmdir "$odd" && mkdir "$odd.lock" &&
        ends 4 add "$odd" bob --password-file "$work/one" --rounds 1000 && ! LC_ALL=C grep -q '[^ -~]' "$work/told" && rmdir "$odd.lock"
}
holds no_control_character_is_printed escapes
holds an_empty_path_is_told fails 2 Usage 'not empty' list ''
helps() {
    ends 0 list --help && ! grep -q 'A password is never' "$work/said" && ends 0 remove --help && ! grep -q 'A password is never' "$work/said" &&
        ends 0 check --help && grep -q 'A password is never' "$work/said"
}
holds help_speaks_of_passwords_where_one_is_taken helps

# --- docs/PASSDB.md ---

# What Django 3.2.25 and passlib 1.7.4 of Debian 12 made of the password s3cret.
brought_in() {
    awk '/^```$/ { inside = 0 } inside; /^```python$/ && ++block == 2 { inside = 1 }' "$home/docs/PASSDB.md" >"$work/convert.py"
    cat >"$work/hashes" <<'END'
passlib $pbkdf2-sha256$29000$AAECAwQFBgcICQoLDA0ODw$AMjn.NcABqM0jGnj/kFWrMhmKuCAzwJMJxaHzz7lATs
django-old pbkdf2_sha256$2000$seasalt2$s/kgu17wj000ZMoDkDZRJpyy7YFXbcF6QWR7fkFAb9w=
dots $pbkdf2-sha256$2000$673X2nvP.V9rzXmPMUaIEQ$mkbHVxSB.HW/Vxmxpjimb5XCguifuqx.eKtn8OB7Nvw
django pbkdf2_sha256$260000$LVSNpVB3TMSTVU3QrXqpLr$jmmxWN+EjyJGxSLmkNX5au4vyImL6Z1kC2o3W0cjaSk=
sha512 $pbkdf2-sha512$2500$nDPmvNc65xzjPIewdi5lzA$LqLVZqfjvca9A1uAnabvyxBBr82wryaBT43ZrTD7yu7wdR2Hu3XQYIeSqmhlfpbEX.8QGwz1OO8ruYJGDOu8OQ
END
    "${PYTHON:-python3}" "$work/convert.py" <"$work/hashes" >"$work/brought" 2>"$work/told" || return 1
    for each in passlib django-old dots django sha512; do
        ends 0 check "$work/brought" "$each" --password-file "$work/one" --no-renew && ends 10 check "$work/brought" "$each" --password-file "$work/two" --no-renew || return 1
    done
    ends 0 list "$work/brought" && printf '%s\tpbkdf2-sha256\t%s\n' django 260000 django-old 2000 dots 2000 passlib 29000 >"$work/due" &&
        printf 'sha512\tpbkdf2-sha512\t2500\n' >>"$work/due" && cmp -s "$work/due" "$work/said"
}
holds hashes_of_django_and_passlib_are_brought_in brought_in
# What cannot be brought in, or is not converted, is refused.
not_brought_in() {
    while read -r line; do
        echo "ann:$line" >"$work/foreign"
        ends 6 check "$work/foreign" ann --password-file "$work/one" && ends 6 list "$work/foreign" || return 1
    done <<'END'
$apr1$rOjSXPV8$5Zr2F9wqdU6VXwo2CLkLL.
$2y$05$abcdefghijklmnopqrstuuO1IdYRxaqvnHJRhu5sSq7/wYgPJLqa6
$5$rounds=5000$abcdefgh$5vDhEbNRjrYgSZbHpZ5sfSrLyR2ZUTFXmlbpcmlcAVA
$6$abcdefgh$yVfUwsw5T.JApa8POvClA1pQ5peiq97DUNyXCZN5IrF.BMSkiaLQ5kvpuEm/VQ1Tvh/KV2TcaWh8qinoW5dhA1
{SHA}ncIvyo+0RVJLHPQj2FZoM3PlMqc=
pbkdf2_sha256$2000$seasalt2$s/kgu17wj000ZMoDkDZRJpyy7YFXbcF6QWR7fkFAb9w=
$pbkdf2-sha256$29000$AAECAwQFBgcICQoLDA0ODw$AMjn.NcABqM0jGnj/kFWrMhmKuCAzwJMJxaHzz7lATs
$pbkdf2-sha1$i=29000,l=20$AAECAwQFBgcICQoLDA0ODw$AAAAAAAAAAAAAAAAAAAAAAAAAAA
$pbkdf2-sha256$i=29000,l=32$AAECAwQFBg$AAAAAAAAAAAAAAAAAAAAAAAAAAAAAAAAAAAAAAAAAAA
$pbkdf2-sha256$i=999,l=32$AAECAwQFBgcICQoLDA0ODw$AAAAAAAAAAAAAAAAAAAAAAAAAAAAAAAAAAAAAAAAAAA
$pbkdf2-sha256$i=10000001,l=32$AAECAwQFBgcICQoLDA0ODw$AAAAAAAAAAAAAAAAAAAAAAAAAAAAAAAAAAAAAAAAAAA
END
}
holds other_hashes_are_refused not_brought_in
address_names() {
    for address in ann@example.org 'Ann.Smith+tag@Example.ORG' "o'neil@example.org"; do
        each=$(printf %s "$address" | tr 'A-Z' 'a-z' | sha256sum | cut -c 1-32)
        ends 0 add "$work/addresses" "$each" --password-file "$work/one" --rounds 1000 || return 1
    done
    [ "$(wc -l <"$work/addresses")" -eq 3 ]
}
holds an_address_becomes_a_name address_names
exit_numbers() {
    ends 0 --help && sed -n 's/^ *\([0-9][0-9]*\)  \([A-Z][A-Za-z]*\) .*/\1 \2/p' "$work/said" >"$work/in-help" && [ "$(wc -l <"$work/in-help")" -eq 15 ] &&
        sed -n 's/^| \([0-9][0-9]*\) | \([A-Za-z]*\) |.*/\1 \2/p' "$home/docs/PASSDB.md" | cmp -s - "$work/in-help" &&
        sed -n '/^\.SH EXIT STATUS/,/^\.SH SECURITY/p' "$home/docs/passdb.1" |
        awk '/^\.B [0-9]/ { number = $2 } /^Done\./ { print number, "Done" } /^[A-Za-z]*: / { sub(/:.*/, ""); print number, $0 }' | cmp -s - "$work/in-help"
}
holds the_pages_have_the_exit_numbers_of_the_help exit_numbers

# --- the examples of a login ---

# Both say yes to the right password of a name alone, whatever text a name or a password is.
login() {
    code=0
    printf '%s\n' "$3" | PASSDB=$PASSDB "$home/examples/$1" "$work/members" "$2" >"$work/said" 2>"$work/told" || code=$?
}
logins() {
    ends 0 add "$work/members" ann --password-file "$work/one" --rounds 1000 && ends 0 add --password-file "$work/one" --rounds 1000 -- "$work/members" help ||
        return 1
    for script in login.py login.sh; do
        login "$script" ann s3cret && [ "$code" -eq 0 ] && [ ! -s "$work/said" ] || return 1
        login "$script" help s3cret && [ "$code" -eq 0 ] || return 1
        for each in '' 's3cret ' "$(head -c 1100 /dev/zero | tr '\0' a)" "$(printf 'caf\351')"; do
            login "$script" ann "$each" && [ "$code" -eq 1 ] || return 1
        done
        for each in -h --help -V --version -- - --even --password-stdin --password-env=HOME --rounds '' ' ' ' ann' 'ann ' Ann ann: 'ann:x' '*' '$(id)' '; true' '../ann' \
            "ann$(printf '\nx')" "$(printf '\nann')" "$(printf 'ann\r')" "$(printf 'ann\351')" "$(printf 'a%.0s' $(seq 33))" "$(head -c 100000 /dev/zero | tr '\0' a)" eve; do
            login "$script" "$each" s3cret
            [ "$code" -eq 1 ] || {
                echo "$script of the name '$each': $code" >"$work/told"
                return 1
            }
        done
        code=0
        PASSDB=$PASSDB "$home/examples/$script" "$work/none" ann <"$work/one" >"$work/said" 2>"$work/told" || code=$?
        [ "$code" -eq 2 ] || return 1
        code=0
        PASSDB=/nowhere/passdb "$home/examples/$script" "$work/members" ann <"$work/one" >"$work/said" 2>"$work/told" || code=$?
        [ "$code" -eq 2 ] || return 1
    done
}
holds logins_say_yes_to_the_right_password_alone logins
calls_from_python() {
    PASSDB=$PASSDB PYTHONPATH=$home/examples PYTHONDONTWRITEBYTECODE=1 "${PYTHON:-python3}" - "$work/members" "$work/none" 2>"$work/told" <<'END'
import sys
from login import login
users, none = sys.argv[1:]
assert login(users, "ann", "s3cret") is True
for name in ("", "\0", "ann\0", "ann\n", "\nann", "ann\n--help", "-h", "--help", "--version", "--", "Ann", "\u0430nn", "\ud800", "ann" * 100000):
    assert login(users, name, "s3cret") is False, name
for password in ("", "s3cret\0", "s3cret\n", "s3cret\r", "s3cret\nmore", "\ud800", "a" * 2000000, "\ufeffs3cret"):
    assert login(users, "ann", password) is False, password[:20]
try:
    login(none, "ann", "s3cret")
except OSError as error:
    assert "ReadFault (3)" in str(error)
else:
    raise AssertionError("a file that is not there")
END
}
holds a_login_in_python_withstands_any_text calls_from_python
# 10,000 names: each is found, and none that is not there.
ten_thousand() {
    awk -v hash="$hash" 'BEGIN { for (i = 0; i < 10000; i++) printf "u-%05d:%s\n", i, hash }' >"$work/crowd"
    ends 0 list "$work/crowd" && [ "$(cut -f 1 "$work/said" | sort -u | wc -l)" -eq 10000 ] || return 1
    for script in login.py login.sh; do
        for each in u-00000 u-04711 u-09999; do
            PASSDB=$PASSDB "$home/examples/$script" "$work/crowd" "$each" <"$work/hashed" >"$work/said" 2>"$work/told" || return 1
        done
        for each in u-10000 u-0471 v; do
            code=0
            PASSDB=$PASSDB "$home/examples/$script" "$work/crowd" "$each" <"$work/hashed" >"$work/said" 2>"$work/told" || code=$?
            [ "$code" -eq 1 ] || return 1
        done
    done
}
holds logins_among_ten_thousand_names ten_thousand

# --- what is installed ---

# No proof and no build for this test: without rt the program is installed as it is.
of_tree() {
    code=0
    PATH=/usr/bin:/bin "$home/passdb" "$@" >"$work/said" 2>"$work/told" || code=$?
    [ "$code" -eq 0 ]
}
installed_files='bin/passdb 755
lib/passdb/ask.sh 644
lib/passdb/install.sh 644
lib/passdb/made 644
lib/passdb/passdb 755
lib/passdb/terminal.sh 644
share/bash-completion/completions/passdb 644
share/doc/passdb/CHANGELOG.md 644
share/doc/passdb/LICENSE-APACHE 644
share/doc/passdb/LICENSE-MIT 644
share/doc/passdb/PASSDB.md 644
share/doc/passdb/login.py 644
share/doc/passdb/login.sh 644
share/man/man1/passdb.1 644'
installs() {
    unset DESTDIR
    (umask 077 && of_tree install "$work/prefix") && [ "$(cd "$work/prefix" && find . -type f -exec stat -c '%n %a' {} + | sed 's|^\./||' | LC_ALL=C sort)" = "$installed_files" ] &&
        ! grep -rlF "$home" "$work/prefix" && ! grep -qE '\./passdb|passdb (build|install)' "$work/prefix/share/man/man1/passdb.1" &&
        grep -qF "\"passdb $(cat "$home/VERSION")\"" "$work/prefix/share/man/man1/passdb.1" && of_tree install "$work/prefix"
}
holds install_puts_its_files_in_place installs
installed_works() {
    ln -s "$work/prefix/bin/passdb" "$work/installed-link"
    for each in "$work/prefix/bin/passdb" "$work/installed-link"; do
        (cd / && PASSDB=$each && ends 0 check "$work/members" ann --password-file "$work/one" --no-renew && [ ! -s "$work/told" ] &&
            fails 10 WrongPassword '' check "$work/members" ann --password-file "$work/two") || return 1
    done
    asks --answer s3cret -- "$work/prefix/bin/passdb" check "$work/members" ann --no-renew
    [ "$code" -eq 0 ] && grep -q 'echo off while asking, on afterwards$' "$work/told" || return 1
    (unset PASSDB && PATH=$work/prefix/bin:/usr/bin:/bin && sh "$work/prefix/share/doc/passdb/login.sh" "$work/members" ann <"$work/one")
}
holds the_installed_command_works installed_works
completes() {
    command -v bash >/dev/null || {
        echo "skipped $name: there is no bash"
        return 0
    }
    bash -c '. "$1"; COMP_WORDS=(passdb re); COMP_CWORD=1; _passdb; [ "${COMPREPLY[*]}" = "reset remove" ] || exit 1
        COMP_WORDS=(passdb check --e); COMP_CWORD=2; _passdb; [ "${COMPREPLY[*]}" = --even ] || exit 1
        COMP_WORDS=(passdb change --new-password-s); COMP_CWORD=2; _passdb; [ "${COMPREPLY[*]}" = --new-password-stdin ]' bash \
        "$work/prefix/share/bash-completion/completions/passdb"
}
holds the_completion_is_that_of_passdb completes
# Each option of the help is completed, and is on the manual page.
options_named() {
    for each in add check change reset remove list; do
        ends 0 "$each" --help || return 1
        for option in $(grep -oE '(^|[ ,])--[a-z-]+' "$work/said" | tr -d ' ,' | sort -u); do
            [ "$option" != -- ] || continue
            sed 's/\\-/-/g' "$home/docs/passdb.1" | grep -q -- "$option" || {
                echo "not on the page: $option" >"$work/told"
                return 1
            }
            grep -q -- "[ \"]${option}[ \"]" "$home/docs/passdb.bash" || {
                echo "not completed: $option" >"$work/told"
                return 1
            }
        done
    done
}
holds each_option_is_on_the_page_and_completed options_named
uninstalls() {
    mkdir -p "$work/shared-prefix/bin" && echo mine >"$work/shared-prefix/bin/mine" && of_tree install "$work/shared-prefix" && of_tree uninstall "$work/shared-prefix" &&
        [ "$(cd "$work/shared-prefix" && find . -type f)" = ./bin/mine ] && "$work/prefix/bin/passdb" uninstall >"$work/said" 2>"$work/told" && [ ! -e "$work/prefix" ] || return 1
    ! of_tree uninstall "$work/shared-prefix" && [ "$code" -eq 2 ] && grep -q '^passdb: Usage (2): ' "$work/told" || return 1
    echo theirs >"$work/shared-prefix/bin/passdb" && ! of_tree install "$work/shared-prefix" && [ "$code" -eq 1 ] &&
        grep -q '^passdb: BuildFailed (1): not installed: .*is not of this command' "$work/told" && grep -qx theirs "$work/shared-prefix/bin/passdb"
}
holds uninstall_leaves_nothing uninstalls

# --- builds ---

old_program() {
    mkdir -p "$work/tree/crates/passdb_command/out" "$work/tree/crates/passdb_command/src" &&
        cp -r "$home/passdb" "$home/wrapper" "$work/tree" && echo 'passdb_command:' >"$work/tree/crates.txt" &&
        printf '#!/bin/sh\necho the program\n' >"$work/tree/crates/passdb_command/out/passdb_command" &&
        chmod +x "$work/tree/crates/passdb_command/out/passdb_command" && sleep 0.01 &&
        echo >"$work/tree/crates/passdb_command/src/main.rt" || return 1
    "$work/tree/passdb" list users >"$work/said" 2>"$work/told" && grep -qx 'the program' "$work/said" && [ "$(wc -l <"$work/told")" -eq 1 ] &&
        grep -q '^passdb: the program is older than crates/passdb_command/src/main.rt; ./passdb build ' "$work/told" || return 1
    rm "$work/tree/crates/passdb_command/out/passdb_command"
    code=0
    PATH=/usr/bin:/bin "$work/tree/passdb" list users >"$work/said" 2>"$work/told" || code=$?
    [ "$code" -eq 1 ] && grep -q '^passdb: BuildFailed (1): ' "$work/told" || return 1
    # At a terminal nothing is built unasked.
    asks -- "$work/tree/passdb" list users
    [ "$code" -eq 1 ] && grep -q '^passdb: BuildFailed (1): the program is not built yet' "$work/told" && grep -q 'passdb before-proof list' "$work/told"
}
holds a_copied_tree_is_run old_program
wrong_build() {
    code=0
    "$home/passdb" build more >"$work/said" 2>"$work/told" || code=$?
    [ "$code" -eq 2 ] && grep -q '^passdb: Usage (2): ' "$work/told"
}
holds build_takes_no_arguments wrong_build

exit "$failed"
