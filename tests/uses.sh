#!/bin/sh
# shellcheck disable=SC2154,SC2317 # the checks are called by name, and tests/shared/checks.sh sets names
# Runs the commands of docs/USES.md, each section in a folder of its own with a store, and shows what comes of them to the programs that they
# are for. Prints `ok NAME` or `not ok NAME` for each, `skipped NAME` with the reason for what this machine has no means for, and ends
# with 1 where one is not ok.
set -eu

home=$(cd "$(dirname "$0")/.." && pwd)
work=$(mktemp -d)
server=
trap '[ -z "$server" ] || kill "$server" 2>/dev/null; rm -rf "$work"' EXIT
# shellcheck source=tests/shared/checks.sh
. "$home/tests/shared/checks.sh"
page=$home/docs/USES.md

mkdir "$work/bin"
printf '#!/bin/sh\nexec setsid -w "%s" "$@"\n' "$home/pkcs12" >"$work/bin/pkcs12"
chmod 755 "$work/bin/pkcs12"
PATH=$work/bin:/usr/sbin:$PATH

# Prints the blocks of the kind $2 of the section $1.
blocks() {
    awk -v section="## $1" -v fence='```'"$2" '
        /^## / { inside = $0 == section }
        inside && $0 == "```" { shown = 0 }
        inside && shown { print }
        inside && $0 == fence { shown = 1 }' "$page"
}

# A certificate of the name server.example by an authority, with its key, and the store of all three; once.
make_store() {
    openssl req -x509 -newkey ed25519 -nodes -keyout "$work/authority.key" -out "$work/authority.pem" -subj '/CN=authority' \
        -days 3650 2>"$work/told" &&
        openssl req -x509 -newkey rsa:2048 -nodes -keyout "$work/server.key" -out "$work/server.pem" -subj '/CN=server.example' \
            -addext 'subjectAltName=DNS:server.example' -CA "$work/authority.pem" -CAkey "$work/authority.key" -days 20 2>"$work/told" &&
        openssl pkcs12 -export -inkey "$work/server.key" -in "$work/server.pem" -certfile "$work/authority.pem" -name 'the server' \
            -out "$work/made.p12" -passout pass:battery-staple 2>"$work/told"
}
# Runs the commands of the section $1 in the new folder $folder.
run_section() {
    folder=$work/in-$number
    number=$((number + 1))
    mkdir "$folder" && cp "$work/made.p12" "$folder/store.p12" && base64 "$work/made.p12" >"$folder/store.b64" &&
        echo battery-staple >"$folder/pass" && echo 'a new password' >"$folder/key-pass" &&
        cp "$work/server.key" "$folder/privkey.pem" && cat "$work/authority.pem" "$work/server.pem" >"$folder/fullchain.pem" || return 1
    blocks "$1" sh >"$folder/commands"
    [ -s "$folder/commands" ] || {
        echo "no commands in the section $1" >"$work/told"
        return 1
    }
    (cd "$folder" && sh -eu commands) >"$work/said" 2>"$work/told"
}
# The key in the file $1 is that of the store, and the further words are arguments of openssl pkey.
is_key() {
    from=$1
    shift
    openssl pkey -in "$from" "$@" -pubout >"$work/public" 2>"$work/told" && openssl pkey -in "$work/server.key" -pubout >"$work/due" &&
        cmp "$work/due" "$work/public"
}
# The first certificate of the file $1 is the server's, and there are two.
is_chain() {
    [ "$(openssl x509 -in "$1" -noout -fingerprint)" = "$(openssl x509 -in "$work/server.pem" -noout -fingerprint)" ] &&
        [ "$(grep -c 'BEGIN CERTIFICATE' "$1")" -eq 2 ]
}
is_private() {
    [ "$(stat -c %a "$1")" = 600 ]
}

if ! command -v openssl >/dev/null; then
    echo "skipped uses: there is no openssl"
    exit "$failed"
fi
number=0
make_store || {
    echo "skipped uses: openssl makes no store here"
    exit "$failed"
}

nginx_reads() {
    run_section nginx && is_chain "$folder/pem/chain-0.pem" && is_key "$folder/pem/key-0.pem" -passin "file:$folder/key-pass" || return 1
    command -v nginx >/dev/null || {
        echo "skipped nginx_takes_it: there is no nginx"
        return 0
    }
    {
        echo "pid $folder/pid; error_log stderr; events {} http { access_log off; server { listen 127.0.0.1:8443 ssl;"
        blocks nginx nginx
        echo '} }'
    } | sed "s|pem/|$folder/pem/|; s|key-pass|$folder/key-pass|" >"$folder/nginx.conf"
    nginx -t -q -p "$folder" -c "$folder/nginx.conf" 2>"$work/told"
}
holds nginx nginx_reads

clear_key() {
    run_section 'Apache and Postfix' && is_chain "$folder/pem/chain-0.pem" && is_private "$folder/site.key" && is_key "$folder/site.key"
}
holds apache_and_postfix clear_key

haproxy_reads() {
    run_section HAProxy && is_chain "$folder/site.pem" && is_key "$folder/site.pem" && is_private "$folder/site.pem" || return 1
    command -v haproxy >/dev/null || {
        echo "skipped haproxy_takes_it: there is no haproxy"
        return 0
    }
    {
        printf 'defaults\n mode tcp\n timeout connect 1s\n timeout client 1s\n timeout server 1s\nfrontend site\n '
        blocks HAProxy haproxy | sed "s|:443|127.0.0.1:8444|; s|site.pem|$folder/site.pem|"
        printf ' default_backend none\nbackend none\n server one 127.0.0.1:1\n'
    } >"$folder/haproxy.cfg"
    haproxy -c -q -f "$folder/haproxy.cfg" 2>"$work/told"
}
holds haproxy haproxy_reads

# A server that asks for a certificate takes that of the store.
curl_sends() {
    run_section curl && is_private "$folder/curl.conf" || return 1
    command -v curl >/dev/null || {
        echo "skipped curl_sends_it: there is no curl"
        return 0
    }
    (cd "$folder" && exec openssl s_server -accept 127.0.0.1:0 -www -Verify 1 -verify_return_error -CAfile "$work/authority.pem" \
        -cert "$work/server.pem" -key "$work/server.key" >served 2>&1) &
    server=$!
    port=
    for _ in 1 2 3 4 5 6 7 8 9 10; do
        sleep 0.3
        port=$(sed -n 's/^ACCEPT 127.0.0.1:\([0-9]*\)$/\1/p' "$folder/served")
        [ -z "$port" ] || break
    done
    code=0
    (cd "$folder" && curl --config curl.conf --silent --show-error --max-time 20 --cacert "$work/authority.pem" \
        --resolve "server.example:$port:127.0.0.1" "https://server.example:$port/") >"$work/said" 2>"$work/told" || code=$?
    kill "$server"
    wait "$server" 2>/dev/null || :
    server=
    [ "$code" -eq 0 ] && grep -q 'Client certificate' "$work/said"
}
holds curl curl_sends

java_reads() {
    command -v keytool >/dev/null || {
        echo "skipped java: there is no keytool"
        return 0
    }
    run_section Java && grep -qi 'the server' "$work/said" && grep -q PrivateKeyEntry "$work/said"
}
holds java java_reads

java_of_pem() {
    command -v keytool >/dev/null || {
        echo "skipped java_of_pem: there is no keytool"
        return 0
    }
    run_section 'A store for Java of PEM files' && grep -q '^server, .*PrivateKeyEntry' "$work/said" &&
        openssl pkcs12 -in "$folder/server.p12" -passin "file:$folder/pass" -nokeys -out "$folder/taken.pem" 2>"$work/told" &&
        is_chain "$folder/taken.pem"
}
holds java_of_pem java_of_pem

cron_tells() {
    run_section 'Expiry, by cron' && grep -q '^cert-[01]: valid to .*, subject CN=server.example' "$work/said" &&
        [ "$(wc -l <"$work/said")" -eq 1 ]
}
holds expiry_by_cron cron_tells

base64_store() {
    run_section Kubernetes && is_chain "$folder/pem/chain-0.pem" && is_private "$folder/site.key" && is_key "$folder/site.key" || return 1
    command -v kubectl >/dev/null || {
        echo "skipped kubectl_takes_it: there is no kubectl"
        return 0
    }
    kubectl create secret tls site --cert="$folder/pem/chain-0.pem" --key="$folder/site.key" --dry-run=client -o name >"$work/said" 2>"$work/told" &&
        grep -qx secret/site "$work/said"
}
holds kubernetes base64_store

named_files() {
    run_section 'One private key of several' && grep -qx 'pem/key-0-.*the.server.*\.pem' "$work/said"
}
holds one_key_of_several named_files

exit "$failed"
