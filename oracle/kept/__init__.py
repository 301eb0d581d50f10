# What is asked and kept: the requests, a file a subject, and the lines that are made of the answers.
