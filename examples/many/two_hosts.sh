#!/bin/sh
# Joins two logs in four parts over ssh, with this machine as two hosts: each has a key of its own, and a home directory where its parts lie.
#
# usage: two_hosts.sh QUERIES CLICKS [PORT]
#
# Prints where each part was joined, and then the report. It takes parallel, rsync, ssh and sshd, which listens here alone, on port 22022 if
# none is given. Keys, homes and parts are taken away at the end.
set -eu
beside=$(dirname "$0")/../../bin
[ ! -x "$beside/photon-part" ] || PATH=$(cd "$beside" && pwd):$PATH
PATH=$PATH:/usr/sbin
export PATH
queries=$1 clicks=$2 port=${3:-22022}
folder=$(mktemp -d)
trap 'kill "$(cat "$folder/sshd.pid")" 2>/dev/null || true; rm -rf "$folder"' EXIT
trap 'exit 143' HUP INT TERM

# Whoever comes with a host's key is in its home.
for host in 0 1; do
    mkdir "$folder/home$host"
    ssh-keygen -q -t ed25519 -N '' -f "$folder/key$host"
    printf 'command="cd %s && HOME=%s PATH=%s exec /bin/sh -c \\"$SSH_ORIGINAL_COMMAND\\"" %s\n' \
        "$folder/home$host" "$folder/home$host" "$PATH" "$(cat "$folder/key$host.pub")" >>"$folder/authorized"
    printf 'Host host%s\n  IdentityFile %s\n' "$host" "$folder/key$host" >>"$folder/config"
    echo "@$host/2/host$host" >>"$folder/hosts"
done
cat >>"$folder/config" <<END
Host *
  HostName 127.0.0.1
  Port $port
  IdentitiesOnly yes
  StrictHostKeyChecking no
  UserKnownHostsFile $folder/known
  LogLevel ERROR
END
ssh-keygen -q -t ed25519 -N '' -f "$folder/server"
[ "$(id -u)" -ne 0 ] || mkdir -p /run/sshd
"$(command -v sshd)" -E "$folder/sshd.log" -f /dev/null -o ListenAddress=127.0.0.1 -o "Port=$port" -o "HostKey=$folder/server" \
    -o "AuthorizedKeysFile=$folder/authorized" -o "PidFile=$folder/sshd.pid" -o StrictModes=no -o UsePAM=no -o PasswordAuthentication=no
printf '#!/bin/sh\nexec ssh -F %s "$@"\n' "$folder/config" >"$folder/as_host"
chmod +x "$folder/as_host"

photon-split --queries "$queries" --clicks "$clicks" --parts 4 --into "$folder/many"
cd "$folder"
for part in 0 1 2 3; do echo "many/$part@$((part % 2))"; done >places
RSYNC_RSH=$folder/as_host parallel --ssh "$folder/as_host" --hostgroups --sshloginfile hosts --joblog jobs \
    --transferfile {}/queries --transferfile {}/clicks --return {}/report photon-part {} :::: places
for host in 0 1; do echo "host $host:" $(cd "$folder/home$host" && ls -d many/*/state) >&2; done
photon-merge many
