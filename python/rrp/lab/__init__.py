"""Plans booted as real routers: configurations of BGP daemons, a script that runs them in network
namespaces, and whether they do what the verdict says."""
