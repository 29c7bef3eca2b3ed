// nothing: there is no operating system
