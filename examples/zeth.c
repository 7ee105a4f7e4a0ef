int zeth_open(void);
#ifdef CONFIG_ZETH
int zeth_probe(void);
#ifndef CONFIG_PCI
int zeth_platform_probe(void);
#endif
#ifdef CONFIG_ZETH_VLAN
int zeth_vlan(void);
#ifdef CONFIG_NET
int zeth_vlan_stats(void);
#endif
#endif
#ifdef CONFIG_ZETH_TRACE
int zeth_trace(void);
#ifndef CONFIG_ZETH_DEBUG
int zeth_trace_alone(void);
#endif
#endif
#ifdef CONFIG_ZETH_RXHASH
int zeth_old_hash(void);
#endif
#endif
#ifdef ZETH_VERBOSE
int zeth_verbose(void);
#ifndef ZETH_VERBOSE
int zeth_quiet(void);
#endif
#endif
