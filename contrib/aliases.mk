# The tables of alias files, made anew only after a check that passed.
#
# In the Makefile of /etc/mail, say:
#
#     ALIASES = aliases lists.aliases
#     ALIASES_FLAGS = --mailboxes mailboxes --settings settings
#     include /usr/share/doc/aliasplan/contrib/aliases.mk
#
# `make check-aliases` checks, and `make newaliases` checks and then has the tables made. contrib/pre-commit, beside this file, says what the check
# tells of and what ALIASES_FLAGS may be.
ALIASES ?= /etc/aliases
ALIASES_FLAGS ?=
NEWALIASES ?= newaliases
ALIASES_FOLDER := $(dir $(lastword $(MAKEFILE_LIST)))
CHECK_ALIASES ?= $(ALIASES_FOLDER)pre-commit

.PHONY: check-aliases newaliases
check-aliases:
	$(CHECK_ALIASES) $(ALIASES_FLAGS) $(ALIASES)

# One line, so that `make -i` doesn't go on after a check that failed either.
newaliases:
	$(CHECK_ALIASES) $(ALIASES_FLAGS) $(ALIASES) && $(NEWALIASES)
