# A sender that never asks for a word and a receiver that never reports one: clean, since nothing is promised of it.
here:  jal x0,here
