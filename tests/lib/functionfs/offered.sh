# Rows of tests/apps/completions: what is offered for dfu-gadget.
# shellcheck shell=sh

expect 'dfu-gadget ' confirm end format image run start
expect 'dfu-gadget i' image
expect 'dfu-gadget --' --help --version
expect 'dfu-gadget format ' 'my file.dfu' other.dfu
expect 'dfu-gadget format medium o' other.dfu
expect 'dfu-gadget format medium image '
expect 'dfu-gadget format --' --force --help --most --tries
expect 'dfu-gadget confirm o' other.dfu
expect 'dfu-gadget start --' --help --tries
expect 'dfu-gadget end --t' --tries
expect 'dfu-gadget format --most '
expect 'dfu-gadget format --most=8'
expect 'dfu-gadget format medium --most 8M o' other.dfu
expect 'dfu-gadget format medium --most=8M o' other.dfu
expect 'dfu-gadget format medium --most 8M image '
expect 'dfu-gadget image o' other.dfu
expect 'dfu-gadget image medium '
expect 'dfu-gadget image --' --help
expect 'dfu-gadget run o' other.dfu
expect 'dfu-gadget run medium '
expect 'dfu-gadget run medium --' --application --attributes --busy --check --config --controller --detach-timeout --dfu-mode \
    --dry-run --erase --help --least --manifest --on-installed --program --root --transfer-size --tries --upgrade --verbose
expect 'dfu-gadget run --d' --detach-timeout --dfu-mode --dry-run
# shellcheck disable=SC2046
expect 'dfu-gadget run medium --controller ' $(ls /sys/class/udc 2> /dev/null)
expect 'dfu-gadget run medium --attributes ' detach download tolerant upload
expect 'dfu-gadget run medium --attributes t' tolerant
expect 'dfu-gadget run medium --busy '
expect 'dfu-gadget run medium --config o' other.dfu
expect 'dfu-gadget run medium --on-installed o' other.dfu
expect 'dfu-gadget run --controller x o' other.dfu
types 'dfu-gadget f' 'dfu-gadget format '
types 'dfu-gadget run medium --contr' 'dfu-gadget run medium --controller='
types 'dfu-gadget run medium --dr' 'dfu-gadget run medium --dry-run '
