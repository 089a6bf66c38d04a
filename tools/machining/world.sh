#!/bin/sh
# What the storage and the machines really have: a command of a controller or a node, for tools/machines. TUFAYON_WORLD/VOLUME has a file for each thing
# that is there: `volume`, `attached NODE`, `staged NODE`, `published NODE TARGET`, where a slash of the target is a colon; and what stands in the file of an
# attachment is its mode. What may never be is written to TUFAYON_WORLD/wrong.
# TUFAYON_MACHINE is the node's id; a controller's commands find TUFAYON_NODE.
# As a storage has to, it refuses what comes late to it: a controller's command whose call has a lower number than the last one of the volume. A controller
# that was stopped may run one once another has gone on. TUFAYON_UNFENCED has it not do so; with TUFAYON_SLOW it takes so many seconds.
set -u
node="${TUFAYON_NODE:-${TUFAYON_MACHINE-}}"
its="$TUFAYON_WORLD/$TUFAYON_VOLUME"
target="$(printf %s "${TUFAYON_TARGET-}" | tr / :)"
wrong() { echo "$TUFAYON_CALL of volume $TUFAYON_VOLUME at ${node:-the storage}: $*" >> "$TUFAYON_WORLD/wrong"; }

if [ -z "${TUFAYON_MACHINE-}" ] && [ -z "${TUFAYON_UNFENCED-}" ]; then
    mkdir -p "$TUFAYON_WORLD/numbers"
    exec 9>> "$TUFAYON_WORLD/numbers/$TUFAYON_VOLUME"
    flock 9
    last="$(cat "$TUFAYON_WORLD/numbers/$TUFAYON_VOLUME")"
    last="${last:-0.0}"
    if [ "${TUFAYON_NUMBER%.*}" -lt "${last%.*}" ] || { [ "${TUFAYON_NUMBER%.*}" = "${last%.*}" ] && [ "${TUFAYON_NUMBER#*.}" -lt "${last#*.}" ]; }; then
        echo "late: $TUFAYON_NUMBER after $last" >&2
        echo "$TUFAYON_CALL of volume $TUFAYON_VOLUME: $TUFAYON_NUMBER after $last" >> "$TUFAYON_WORLD/late"
        exit 1
    fi
    printf %s "$TUFAYON_NUMBER" > "$TUFAYON_WORLD/numbers/$TUFAYON_VOLUME"
fi
[ -n "${TUFAYON_MACHINE-}" ] || [ -z "${TUFAYON_SLOW-}" ] || sleep "$TUFAYON_SLOW"

case "$TUFAYON_CALL" in
    CreateVolume) mkdir -p "$its" && : > "$its/volume" ;;
    DeleteVolume)
        for it in "$its"/attached*; do [ ! -e "$it" ] || wrong "it is ${it##*/}"; done
        rm -f "$its/volume"
        ;;
    ControllerPublishVolume)
        for it in "$its"/attached*; do
            if [ ! -e "$it" ] || [ "$it" = "$its/attached $node" ]; then continue; fi
            mode="$(cat "$it" 2> /dev/null)" || continue
            case "$mode$TUFAYON_MODE" in *[1267]*) wrong "it is ${it##*/} in mode $mode, and now in mode $TUFAYON_MODE" ;; esac
        done
        printf %s "$TUFAYON_MODE" > "$its/attached $node"
        ;;
    ControllerUnpublishVolume)
        [ ! -e "$its/staged $node" ] || wrong "it is staged there"
        rm -f "$its/attached $node"
        ;;
    NodeStageVolume)
        [ -e "$its/attached $node" ] || wrong "it isn't attached there"
        : > "$its/staged $node"
        ;;
    NodeUnstageVolume)
        for it in "$its/published $node "*; do [ ! -e "$it" ] || wrong "it is ${it##*/}"; done
        rm -f "$its/staged $node"
        ;;
    NodePublishVolume)
        [ -e "$its/staged $node" ] || wrong "it isn't staged there"
        : > "$its/published $node $target"
        ;;
    NodeUnpublishVolume) rm -f "$its/published $node $target" ;;
    *) exit 1 ;;
esac
