# What the scripts that drive the built programs share. They read it from the folder of the repository.

# a port of loopback that nobody listens at, below those that the system gives to clients
free_port() {
  local port
  while port=$((20000 + RANDOM % 12000)); do
    if ! (exec 3<> "/dev/tcp/127.0.0.1/$port") 2> /dev/null; then
      echo "$port"
      return
    fi
  done
}

# the SHA-256 of a text, as a journal has it
hash_of() {
  printf '%s' "$1" | sha256sum | cut -d ' ' -f 1
}

# the settings of an nginx of its own, whose files are in a folder: its log, which files it includes, and its first words
settings_of_nginx() {
  local at=$1 log=$2 included=$3 first=${4:-} kind
  [ "$(id -u)" != 0 ] || echo 'user root;'
  echo "${first}worker_processes 1; pid $at/nginx.pid; error_log $log;"
  echo 'events { worker_connections 512; }'
  echo "http { include $included;"
  for kind in client_body proxy fastcgi uwsgi scgi; do echo "${kind}_temp_path $at/$kind;"; done
  echo '}'
}

# ends a script of `make try-run`, and says why
fail() {
  echo "try-run: $1"
  exit 1
}
