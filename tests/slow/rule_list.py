"""All rules that can be turned, by name, each with what it says while it isn't turned."""

import rules_of_faults as faults
import rules_of_forms as forms
import rules_of_inputs as inputs
import rules_of_notes as notes
import rules_of_plans as plans
import rules_of_runs as runs
import rules_of_strictness as strictness

RULES = {
    **inputs.JSON,
    **inputs.INVENTORY,
    **inputs.FLEET,
    **inputs.PLAYBOOK,
    **inputs.CONDITIONS,
    **inputs.WORDS,
    **runs.PLANS,
    **runs.PROGRAMS,
    **runs.STEPS,
    **runs.BATCHES,
    **runs.PLAYS,
    **runs.TELLING,
    **runs.REHEARSALS,
    **runs.COURSES,
    **runs.GROUPS,
    **runs.JOURNALS,
    **runs.RESUMES,
    **plans.FORETOLD,
    **plans.CHECKS,
    **plans.EXPECTATIONS,
    **notes.NOTES,
    **faults.FAULTS,
    **strictness.STRICTNESS,
    **forms.FORMS,
}
