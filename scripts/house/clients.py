"""Clients of ACME of Debian's packages, by which names get certificates of a house, and what then serves them.

Each has a function of the house, a folder of its own, and the port at which http-01 challenges are tried. A client that ends once it has a
certificate gives its words, its environment, and the paths of chain and key; a server gives its words, its environment, and the port at
which it serves the name by TLS.
"""
import os
import pwd

from scripts.repository import write
from scripts.trying import free_port

NAME = "web.house.test"
HOOK = """\
#!/bin/sh
case $1 in begin) [ "$2" = http-01 ] && printf %s "$5" > "{web}/$4" ;; esac
"""
# Debian's Apache with mod_md; it takes a certificate once it is started again.
APACHE = """\
LoadModule mpm_event_module /usr/lib/apache2/modules/mod_mpm_event.so
LoadModule authz_core_module /usr/lib/apache2/modules/mod_authz_core.so
LoadModule ssl_module /usr/lib/apache2/modules/mod_ssl.so
LoadModule md_module /usr/lib/apache2/modules/mod_md.so
ServerName {name}
ServerRoot {folder}
DefaultRuntimeDir {folder}
PidFile {folder}/pid
ErrorLog {folder}/log
LogLevel md:info
Listen 127.0.0.1:{port}
Listen 127.0.0.1:{tls}
MDCertificateAuthority {directory}
MDCACertificateFile {root}
MDCertificateAgreement accepted
MDContactEmail a@b.example
MDStoreDir {folder}/md
MDPortMap http:{port} https:{tls}
MDomain {name}
<VirtualHost 127.0.0.1:{tls}>
    ServerName {name}
    SSLEngine on
    DocumentRoot {folder}
</VirtualHost>
"""
CADDY = """\
{{
    http_port {port}
    https_port {tls}
    acme_ca {directory}
    acme_ca_root {root}
    email a@b.example
    admin off
    skip_install_trust
    storage file_system {folder}/store
}}
{name} {{
    respond "served"
}}
"""
# Challenges are handed on to a client, which the certificate comes from.
HAPROXY = """\
defaults
    mode http
    timeout connect 5s
    timeout client 20s
    timeout server 20s
frontend web
    bind 127.0.0.1:{port}
    use_backend client if {{ path_beg /.well-known/acme-challenge/ }}
backend client
    server client 127.0.0.1:{client}
frontend tls
    bind 127.0.0.1:{tls} ssl crt {pem}
    http-request return status 200 content-type text/plain string served
"""


def certbot(house, folder, port):
    """certbot's own web server answers the challenges."""
    words = certbot_words(house, folder, NAME, "--standalone", "--http-01-address", "127.0.0.1", "--http-01-port", str(port))
    return words, {"REQUESTS_CA_BUNDLE": house.root}, *(f"{folder}/config/live/{NAME}/{part}.pem" for part in ("fullchain", "privkey"))


def certbot_words(house, folder, name, *answering):
    """The words of certbot for a name, with those by which challenges are answered."""
    words = ["certbot", "certonly", "--non-interactive", "--agree-tos", "--register-unsafely-without-email", *answering]
    words += ["--server", f"{house.base}/directory", "--domain", name, *(f"--{part}-dir={folder}/{part}" for part in ("config", "work", "logs"))]
    return words + (["--eab-kid", house.binding[0], "--eab-hmac-key", house.binding[1]] if house.binding else [])


def lego(house, folder, port):
    """lego's own web server answers the challenges."""
    words = ["lego", "--accept-tos", "--email", "a@b.example", "--server", f"{house.base}/directory", "--path", folder, "--http",
             "--http.port", f"127.0.0.1:{port}", "--domains", NAME]
    if house.binding:
        words += ["--eab", "--kid", house.binding[0], "--hmac", house.binding[1]]
    return [*words, "run"], {"LEGO_CA_CERTIFICATES": house.root}, *(f"{folder}/certificates/{NAME}.{part}" for part in ("crt", "key"))


def uacme(house, folder, port):
    """uacme, with a change of the account's key. It trusts the machine's authorities alone: a name space of its own has the house's in
    their place. A hook answers the challenges by files."""
    web, hook = f"{folder}/.well-known/acme-challenge", f"{folder}/hook"
    os.makedirs(web)
    with open(os.open(hook, os.O_WRONLY | os.O_CREAT, 0o700), "w", encoding="utf-8") as file:
        file.write(HOOK.format(web=web))
    begin, serve = 'uacme --yes --confdir "$1" --acme-url "$2"', 'python3 -m http.server --bind 127.0.0.1 --directory "$1" "$5" & trap "kill $!" EXIT; '
    steps = ('mount --bind "$0" /etc/ssl/certs/ca-certificates.crt', f"{begin} new", f"{begin} newkey", f'{begin} --hook "$3" issue "$4"')
    words = ["unshare", "--map-root-user", "--mount", "sh", "-c", serve + " && ".join(steps), house.root, folder, f"{house.base}/directory", hook, NAME, str(port)]
    return words, {}, f"{folder}/{NAME}/cert.pem", f"{folder}/private/{NAME}/key.pem"


def apache2(house, folder, port):
    """Apache's mod_md gets the certificate, as a user that may be anybody."""
    tls = free_port()
    furnish(f"{folder}/conf", APACHE, house, folder, port, tls)
    words = ["apache2", "-f", f"{folder}/conf", "-D", "FOREGROUND"]
    if os.getuid() == 0:
        nobody = pwd.getpwnam("nobody")
        os.chown(folder, nobody.pw_uid, nobody.pw_gid)
        words = ["setpriv", "--reuid=nobody", "--regid=nogroup", "--clear-groups", *words]
    return words, {}, tls


def caddy(house, folder, port):
    """Caddy gets the certificate by itself."""
    tls = free_port()
    furnish(f"{folder}/Caddyfile", CADDY, house, folder, port, tls)
    return ["caddy", "run", "--config", f"{folder}/Caddyfile", "--adapter", "caddyfile"], {"HOME": folder, "XDG_CONFIG_HOME": folder}, tls


def haproxy(house, folder, port):
    """HAProxy stands before certbot, and serves what that gets; with no certificate at first it serves one of its own making."""
    tls, client, pem = free_port(), free_port(), f"{folder}/served.pem"
    furnish(f"{folder}/conf", HAPROXY, house, folder, port, tls, client=client, pem=pem)
    words, environment, chain, key = certbot(house, folder, client)
    step = ('openssl req -x509 -newkey rsa:2048 -noenc -subj / -keyout "$1" -out "$1.crt" && cat "$1.crt" >> "$1" || exit; haproxy -f "$2" & first=$!; '
            'trap "kill $first; exit 1" TERM; sleep 2; pem=$1 conf=$2 chain=$3 key=$4; shift 4; "$@" && cat "$chain" "$key" > "$pem" && kill $first; '
            'wait $first; exec haproxy -f "$conf"')
    return ["sh", "-c", step, "sh", pem, f"{folder}/conf", chain, key, *words], environment, tls


def furnish(path, text, house, folder, port, tls, **more):
    write(path, text.format(name=NAME, directory=f"{house.base}/directory", root=house.root, folder=folder, port=port, tls=tls, **more))
