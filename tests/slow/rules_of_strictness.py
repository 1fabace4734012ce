"""The rules of `run --strict`, each as it is while it isn't turned."""

STRICTNESS = {
    "strict-a-later-part-may-decide": "A part that is known to decide does so behind one that isn't known.",
    "strict-codes-are-not-sure": "Whether a result has a code isn't known.",
    "strict-down-hosts-are-not-asked": "Hosts that are down at the start don't wait, and needn't have a name.",
    "strict-earlier-plays-register": "What tasks of earlier plays register is there.",
    "strict-fields-are-of-results": "A field of what is only a variable has no value.",
    "strict-first-host": "Of the hosts that wait the first by name is told.",
    "strict-handlers-are-not-sure": "What a handler registers is there perhaps.",
    "strict-own-results-judge": "What judges the end of a step's program may read its own result.",
    "strict-plays-of-the-host": "Earlier plays that are for other hosts register nothing on a host.",
    "strict-skipped-steps-read-nothing": "A step whose `when` is known to be false reads nothing else.",
    "strict-variables-behind-results": "Where perhaps nothing is registered under a name, a variable stands behind it.",
    "strict-what-is-decided-ends": "What stands behind a part that decides isn't read.",
    "strict-who-asks-misses-nothing": "Who asks whether a name is defined misses nothing.",
    "strict-whole-results-have-no-text": "A whole result has no text in a word.",
}
