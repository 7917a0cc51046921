#!/bin/sh
# Stages of a delivery as commands that know nothing of each other. The paths say that the tests run behind a build that succeeded, and the
# deployment behind tests that succeeded; behind a failure the next build begins. The stages are begun in the wrong order here, and the paths
# put them into the right one: the first build fails, the tests of the second one do, and the third is deployed. The variable
# WANZOCHE names another way to run the command `wanzoche`.
set -eu
wanzoche=${WANZOCHE:-wanzoche}
folder=$(mktemp -d)
trap 'rm -rf "$folder"' EXIT
cat > "$folder/stages.path" << 'END'
resource delivery cell
operation build, built, broken, test, tested, failed, deploy
path build ; ((built ; test ; ((tested ; deploy) , failed)) , broken) end
end
END

# Runs a command as a stage when its turn has come. The store and the declaration are the same for all.
as() { $wanzoche exec --store "$folder/stages.log" --declaration "$folder/stages.path" --timeout 600 "$@"; }

as deploy -- sh -c 'echo "build $(cat "$1/build") is deployed"' sh "$folder" &
for tests in 1 2; do
    as --passed tested --failed failed test -- sh -c '
        build=$(cat "$1/build")
        test "$build" != 2 || { echo "build $build fails its tests"; exit 1; }
        echo "build $build passes its tests"' sh "$folder" || true
done &
for build in 1 2 3; do
    as --passed built --failed broken build -- sh -c '
        test "$2" != 1 || { echo "build $2 fails"; exit 1; }
        echo "$2" > "$1/build"
        echo "build $2 is built"' sh "$folder" "$build" || true
done
wait
$wanzoche status --store "$folder/stages.log" | head -n 1
echo "the journal: $($wanzoche audit --store "$folder/stages.log")"
