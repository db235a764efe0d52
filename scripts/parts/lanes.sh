# Read by .ci/run, scripts/build and scripts/cost: how many crates `rt` proves side by side (RT_JOBS), where that isn't set.
# One a processor, at most one for 4 GB of free memory, and one at least: no crate's proof takes more than 4 GB.
: "${RT_JOBS:=$(awk -v most="$(nproc)" '/^MemAvailable:/ { lanes = int($2 / 4e6) }
    END { print lanes < 1 ? 1 : lanes < most ? lanes : most }' /proc/meminfo)}"
export RT_JOBS
