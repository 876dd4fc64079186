#!/bin/bash
# The second boot: what has outlived it, and a server at a port. See check_units.py.
part=2
# shellcheck source-path=SCRIPTDIR source=begin.sh
. /mnt/out/begin.sh
ready --unix-socket /run/hipsd/survey1 http://hipsd/properties
is 'inactive active active active active ' systemctl is-active hipsd@survey0 hipsd@survey1 nginx hipsd-backup.timer hipsd-renew.timer
is 200 code "http://localhost/survey/$(leaf 9)"
is 404 code "http://localhost/survey/$(leaf 10)"
# To a port, by the steps of OPERATING, and renewed there.
install -D -m 644 "$examples/hipsd.tcp.conf" /etc/systemd/system/hipsd@.service.d/tcp.conf
systemctl daemon-reload
"$examples/rollover.sh" unix:/run/hipsd/survey1 127.0.0.1:8080 >/mnt/out/said 2>&1 && wrong "rollover.sh takes a port that is open to all"
grep -qF 'hipsd.tcp.nft has to name its port' /mnt/out/said || wrong "rollover.sh, with a port that is open to all: $(cat /mnt/out/said)"
is 'active inactive ' systemctl is-active hipsd@survey1 hipsd@8080
sed 's/www-data }/www-data, hipsd }/' "$examples/hipsd.tcp.nft" | nft -f -
rolls unix:/run/hipsd/survey1 127.0.0.1:8080
is '000 curl 7 ' as nobody code http://127.0.0.1:8080/properties
is 201 code -u editor:secret -T /mnt/out/10.fits "http://localhost/edit/$(leaf 10)"
systemctl start hipsd-backup || wrong "hipsd-backup.service at a port"
rolls
is 'inactive active ' systemctl is-active hipsd@8080 hipsd@8081
says hipsd@8080 'drain.sh: 127.0.0.1:8080 ends, and with it the 1 edits since its start, 0 of them never published'
# Where it can't listen it isn't started again.
ln -sn /srv/survey /var/lib/hipsd/80
systemctl start hipsd@80
sleep 3
is 'ExecMainStatus=8 NRestarts=0 ' sh -c 'systemctl show -p NRestarts -p ExecMainStatus hipsd@80 | sort'
# SocketBindAllow, where this systemd can do it.
if systemctl --version | grep -qF +BPF_FRAMEWORK; then
    ln -sn /srv/survey /var/lib/hipsd/8090
    systemctl start hipsd@8090
    sleep 1
    says hipsd@8090 "can't listen at 127.0.0.1:8090"
fi
# And back.
rm /etc/systemd/system/hipsd@.service.d/tcp.conf
systemctl daemon-reload
rolls 127.0.0.1:8081 unix:/run/hipsd/survey0
is 'inactive active ' systemctl is-active hipsd@8081 hipsd@survey0
is 200 code "http://localhost/survey/$(leaf 10)"
# Renewed before its connections are taken: of four places that take 50, one has taken 40 or more after 157.
printf '[Service]\nExecStart=\nExecStart=/usr/local/bin/hipsd serve /run/hipsd/%%i 50 4\n' >/etc/systemd/system/hipsd@.service.d/few.conf
systemctl daemon-reload && systemctl restart hipsd@survey0
ready --unix-socket /run/hipsd/survey0 http://hipsd/properties
curl -s -o /dev/null -H 'Connection: close' --unix-socket /run/hipsd/survey0 'http://hipsd/properties?[1-157]'
systemctl start hipsd-renew || wrong "hipsd-renew.service, with most connections taken"
says hipsd-renew 'percent of its connections since then'
is 'inactive active ' systemctl is-active hipsd@survey0 hipsd@survey1
is 200 code "http://localhost/survey/$(leaf 10)"
