"""Lists on several hosts: machines that are cut off and killed, what people do meanwhile, and what has to hold in the end."""
