#!/bin/bash
# nginx-as-given.sh FOLDER EXAMPLES PROGRAM SURVEY: the steps of docs/OPERATING.md for nginx, in a network and with mounts of its own.
set -e
ip link set lo up
cp -a /etc/nginx "$1/nginx"
mount --bind "$1/nginx" /etc/nginx
for place in /var/cache /run /var/log/nginx /etc/ssl/private; do mkdir -p "$place" && mount -t tmpfs none "$place"; done
cp -a /etc/ssl/certs "$1/certs"
mount --bind "$1/certs" /etc/ssl/certs
sed 's/hips[.]example[.]org/survey.your.org/' "$2/nginx.conf" >/etc/nginx/conf.d/hipsd.conf
cp "$2/hipsd.server.conf" /etc/nginx
rm -f /etc/nginx/sites-enabled/default
install -m 640 -o root -g www-data /dev/null /etc/nginx/hipsd.users
printf 'editor:%s\n' "$(echo secret | openssl passwd -6 -stdin)" >>/etc/nginx/hipsd.users
nginx -t
openssl req -x509 -newkey rsa:2048 -nodes -days 30 -subj /CN=survey.your.org -addext subjectAltName=DNS:survey.your.org \
    -keyout /etc/ssl/private/hipsd.key -out /etc/ssl/certs/hipsd.pem
sed -i 's/#tls //' /etc/nginx/conf.d/hipsd.conf
nginx -t
nginx
cd "$4"
install -d -g www-data -m 750 /run/hipsd
(umask 117 && exec setpriv --regid=www-data --clear-groups "$3" serve /run/hipsd/survey0 65536 64) &
server=$!
trap 'kill "$server"; nginx -s stop' EXIT
asks() {
    code=$1
    shift
    got=$(curl -s -o /dev/null -w '%{http_code}' --max-time 20 --cacert /etc/ssl/certs/hipsd.pem --resolve survey.your.org:443:127.0.0.1 "$@")
    [ "$got" = "$code" ] || { echo "curl $*: $got in place of $code"; exit 1; }
}
curl -s -f -o "$1/ready" --retry 30 --retry-delay 1 --retry-all-errors --unix-socket /run/hipsd/survey0 http://hipsd/properties
asks 200 http://localhost/survey/properties
asks 200 https://survey.your.org/survey/properties
asks 401 -X POST https://survey.your.org/edit/publish
asks 200 -u editor:secret -H 'Origin: https://survey.your.org' -X POST https://survey.your.org/edit/publish
