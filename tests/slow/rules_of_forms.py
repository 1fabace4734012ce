"""The rules of what `--json` prints, each as it is while it isn't turned."""

FORMS = {
    "form-advances-in-one-object": "All batches by which a command goes on stand in one object.",
    "form-blocked-plans-have-a-list": "A plan that is blocked has a list of batches, without one.",
    "form-bytes-of-details": "In a detail of a fault each byte outside 0x20 to 0x7e is a question mark.",
    "form-counts-all-plays": "The number of batches of a course is that of all its plays.",
    "form-ends-its-line": "An object ends with one line end.",
    "form-hosts-in-no-batch-have-null": "A host that the plan has in no batch has null as its number.",
    "form-idle-hosts-are-left-out": "A host that is idle isn't among those of a recap.",
    "form-limits-as-numbers": "A limit in percent stands as its number.",
    "form-nobody-held-is-a-list": "Where nobody is held a list without a name says so.",
    "form-nothing-opened-is-null": "A boundary that opens nothing has null there.",
    "form-numbers-of-faults": "A detail that is a number stands as a number.",
    "form-only-plays-have-numbers": "The only play of a file has its number too.",
    "form-plays-have-the-numbers-of-the-file": "A run that goes on counts plays as the file does.",
    "form-plays-that-go-on-have-null": "The end of a play that goes on is null.",
    "form-without-blanks": "No blank stands between two signs.",
}
