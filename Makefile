# make test: every test, as the gate runs them
.PHONY: test
test:
	.ci/run
