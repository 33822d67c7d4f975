run-plan
