#!/usr/bin/env tclsh
# Writes the literal commands of a script that computes; --help says how.

set usage {flatten.tcl SCRIPT [PARAMETER=VALUE].. [--native BITS] >STAND_IN.tcl

Runs a component's script, or a system's, in an interpreter of its own that reaches no files and no programs, and writes the commands that it
comes to as `avalon` reads them. Parameters have the values that are given, else their defaults; the validation and elaboration callbacks run.
What is left out is told on standard error. The status is 1 where the script fails or refuses its parameters.

What a component has and `avalon` doesn't know is made at the top level: a stand-in says so in comments, which top.py follows.

    #top PORT = VALUE              an input of the component, over nets INTERFACE$role
    #top output PORT BITS          an output that the next line uses
    #top INTERFACE$role = VALUE    what the module is shown in its place
    #top begins PORT INTERFACE     an input that is high in the first cycle of each transfer
    #top open PORT                 an output that nothing reads
    #top without PORT              the component has no such port

Data of native alignment are made as wide as the words of the host, 32 bits where --native says nothing.
}

# ---- what avalon reads

set system_commands {package create_system add_instance add_connection set_connection_parameter_value add_interface set_interface_property
  set_interconnect_requirement save_system set_project_property set_validation_property set_instance_parameter_value set_instance_property
  set_module_property set_use_testbench_naming_pattern}
# commands of component scripts that mean nothing, whose loss isn't told
set silent_commands {add_fileset_file set_module_assignment set_interface_assignment add_documentation_link add_display_item
  set_display_item_property set_parameter_update_callback}
set kinds {clock reset avalon avalon_streaming conduit interrupt}
set older_kinds {avalon_master {avalon start} avalon_slave {avalon end} avalon_streaming_source {avalon_streaming start}
  avalon_streaming_sink {avalon_streaming end} clock_source {clock start} clock_sink {clock end} reset_source {reset start} reset_sink {reset end}
  interrupt_sender {interrupt end} interrupt_receiver {interrupt start} conduit_start {conduit start} conduit_end {conduit end}}
set roles(avalon) {address read write writedata byteenable burstcount waitrequest readdata readdatavalid response writeresponsevalid lock
  debugaccess beginbursttransfer}
set roles(avalon_streaming) {ready valid data channel error startofpacket endofpacket empty}
set both_properties {associatedclock enabled associatedreset export_of port_name_map cmsis_svd_variables svd_address_group
  ipxact_register_map_variables errordescriptor maximumpendingwritetransactions alwaysburstmaxburst constantburstbehavior interleavebursts
  bridgestomaster bridgedaddressoffset addressgroup isflash ismemorydevice isnonvolatilestorage printabledevice registerincomingsignals
  registeroutgoingsignals dostreamreads dostreamwrites minimumresponselatency minimumreadlatency maxaddresswidth}
set properties(avalon) [concat $both_properties {addressunits readlatency readwaittime readwaitstates writewaittime writewaitstates
  maximumpendingreadtransactions waitrequestallowance setuptime holdtime explicitaddressspan bitspersymbol burstcountunits timingunits
  addressalignment linewrapbursts burstonburstboundariesonly isbigendian}]
set properties(avalon_streaming) [concat $both_properties {symbolsperbeat databitspersymbol firstsymbolinhighorderbits maxchannel readylatency
  readyallowance beatspercycle emptywithinpacket}]

# ---- the call

proc fail {text} { puts stderr "flatten.tcl: $text"; exit 1 }
proc left_out {text} { puts stderr "flatten.tcl: left out: $text" }

set native 32
set given [dict create]
set file {}
for {set k 0} {$k < [llength $argv]} {incr k} {
  set word [lindex $argv $k]
  if {$word in {-h --help}} { puts -nonewline $usage; exit 0 }
  if {$word eq "--native"} { set native [lindex $argv [incr k]]; continue }
  if {$file eq {}} { set file $word; continue }
  if {![regexp {^([^=]+)=(.*)$} $word -> name value]} { puts stderr $usage; exit 2 }
  dict set given $name $value
}
if {$file eq {}} { puts stderr $usage; exit 2 }
if {![string is integer -strict $native]} { fail "--native asks for a number of bits" }
if {[catch { set channel [open $file]; fconfigure $channel -encoding utf-8; set text [read $channel]; close $channel } why]} { fail $why }

# ---- what the script says

set noted {}            ;# a system's commands
set values $given       ;# parameters: values, types, and those that the component has
set types [dict create]
set hdl [dict create]
set callbacks {}
set name {}
set module {}
set interfaces {}       ;# names in their order; then of each its kind, its direction, its properties and its ports
set is_system 0

proc number_of {it} { expr {[string is integer -strict $it] ? $it + 0 : $it} }

proc take_interface {name kind direction {clock {}}} {
  global interfaces of kinds older_kinds
  if {[dict exists $older_kinds $kind]} { lassign [dict get $older_kinds $kind] kind direction }
  set direction [string map {sender end receiver start} [string tolower $direction]]
  if {$name ni $interfaces} { lappend interfaces $name }
  set of($name) [dict create kind $kind direction $direction properties {} ports {}]
  if {$clock ni {{} asynchronous}} { dict set of($name) properties associatedClock $clock }
  if {$kind ni $kinds} { left_out "interface $name of the kind $kind" }
}

proc take_port {interface port {role export} {direction {}} {width 1}} {
  global of width_of
  if {![info exists of($interface)]} { fail "add_interface_port $interface $port: there is no interface $interface" }
  dict set of($interface) ports $port [list $role $direction]
  set width_of($port) $width
}

proc take_property {interface key value} {
  global of
  if {![info exists of($interface)]} { fail "set_interface_property $interface $key: there is no interface $interface" }
  # the last setting counts, under one spelling
  foreach known [dict keys [dict get $of($interface) properties]] {
    if {[string equal -nocase $known $key]} { set key $known }
  }
  dict set of($interface) properties $key $value
}

proc property {interface key {default {}}} {
  global of
  dict for {known value} [dict get $of($interface) properties] {
    if {[string equal -nocase $known $key]} { return $value }
  }
  return $default
}

proc said {command args} {
  global values given types hdl callbacks name module noted is_system system_commands silent_commands interfaces of width_of ended
  if {$command eq "create_system"} { set is_system 1 }
  if {$is_system} {
    if {$command eq "package" && [lindex $args end-1] ne "qsys" && [lindex $args end] ne "qsys"} { return }
    if {$command in $system_commands} { lappend noted [linsert $args 0 $command] } else { left_out "$command $args" }
    return
  }
  switch -- $command {
    package {
      if {"qsys" in $args} { set noted [list [linsert $args 0 package]] }
    }
    add_parameter {
      lassign $args p type default
      dict set types $p $type
      if {![dict exists $values $p]} { dict set values $p $default }
    }
    set_parameter_property {
      lassign $args p key value
      if {[string equal -nocase $key DEFAULT_VALUE] && ![dict exists $given $p]} { dict set values $p $value }
      if {[string equal -nocase $key HDL_PARAMETER] && [string is true -strict $value]} { dict set hdl $p 1 }
    }
    set_parameter_value { dict set values [lindex $args 0] [lindex $args 1] }
    get_parameter_value {
      if {![dict exists $values [lindex $args 0]]} { error "there is no parameter [lindex $args 0]" }
      return [number_of [dict get $values [lindex $args 0]]]
    }
    get_parameters { return [dict keys $types] }
    get_parameter_property {
      if {[string toupper [lindex $args 1]] in {VALUE DEFAULT_VALUE}} { return [dict get $values [lindex $args 0]] }
    }
    set_module_property {
      lassign $args key value
      switch -- [string toupper $key] {
        NAME { set name $value }
        VALIDATION_CALLBACK { set callbacks [linsert $callbacks 0 $value] }
        ELABORATION_CALLBACK { lappend callbacks $value }
        COMPOSITION_CALLBACK { fail "the component is composed of others; join these in the system" }
      }
    }
    get_module_property { if {[string equal -nocase [lindex $args 0] NAME]} { return $name } }
    set_fileset_property { if {[string equal -nocase [lindex $args 1] TOP_LEVEL]} { set module [lindex $args 2] } }
    add_fileset { if {[llength $args] > 3} { set module [lindex $args 3] } }
    add_interface { take_interface {*}$args }
    add_interface_port { take_port {*}$args }
    set_interface_property { take_property {*}[lrange $args 0 2] }
    get_interfaces { return $interfaces }
    get_interface_property { return [property {*}[lrange $args 0 1]] }
    get_interface_ports { return [dict keys [dict get $of([lindex $args 0]) ports]] }
    set_port_property {
      lassign $args port key value
      switch -- [string toupper $key] {
        WIDTH_EXPR - WIDTH_VALUE { set width_of($port) $value }
        TERMINATION { if {[string is true -strict $value]} { set ended($port) 0 } else { unset -nocomplain ended($port) } }
        TERMINATION_VALUE { if {[info exists ended($port)]} { set ended($port) [number_of $value] } }
        VHDL_TYPE - DRIVEN_BY - ROLE {}
        default { left_out "set_port_property $args" }
      }
    }
    send_message {
      set level [string toupper [lindex [lindex $args 0] 0]]
      if {$level eq "ERROR"} { fail "the component says: [lindex $args 1]" }
      puts stderr "flatten.tcl: the component says: [lindex $args 1]"
    }
    default { if {$command ni $silent_commands} { left_out "$command $args" } }
  }
  return
}

set inside [interp create -safe]
interp eval $inside { rename package {} }
interp alias $inside said {} said
interp eval $inside { proc unknown {args} { said {*}$args } }
# a script that doesn't end is stopped
interp limit $inside time -seconds [expr {[clock seconds] + 10}]
if {[catch { interp eval $inside $text } why]} { fail "$file: $why" }
foreach callback $callbacks {
  if {[catch { interp eval $inside $callback } why]} { fail "$file: $callback: $why" }
}

# ---- what is written

# A word of a literal command.
proc word {it} {
  if {$it ne {} && ![regexp {[\s;"$\[\]{}\\#]} $it]} { return $it }
  if {![info complete "{$it}"] || [regexp {\\$} $it]} { return "{[string map {\{ ( \} ) \\ /} $it]}" }
  return "{$it}"
}
proc put {args} { puts [join [lmap it $args { word $it }]] }

if {$is_system} {
  puts "# written by flatten.tcl from [file tail $file]"
  set exported {}
  foreach it $noted {
    if {[lindex $it 0] eq "add_interface"} { lappend exported [lindex $it 1] }
  }
  foreach it $noted {
    lassign $it command interface key
    if {$command eq "add_interface" && [lindex $it 2] ni $kinds} { set it [list add_interface $interface conduit end] }
    if {$command eq "set_interface_property" && $interface ni $exported} {
      if {![string equal -nocase $key EXPORT_OF]} { left_out $it; continue }
      put add_interface $interface conduit end
      lappend exported $interface
    }
    put {*}$it
  }
  exit 0
}

# A width: a number, a parameter, or an expression over parameters.
proc ::tcl::mathfunc::clog2 x { set n 0; while {(1 << $n) < $x} { incr n }; return $n }
proc ::tcl::mathfunc::log2 x { expr {log($x) / log(2)} }
proc ::tcl::mathfunc::ceil_log2 x { expr {clog2($x)} }
proc bits {port it} {
  global values
  if {[string is integer -strict $it]} { return [expr {$it + 0}] }
  set text $it
  foreach p [lsort -decreasing -command {apply {{a b} { expr {[string length $a] - [string length $b]} }}} [dict keys $values]] {
    set text [regsub -all -- "(?:\\y|\\$)$p\\y" $text [string map {\\ {} & {}} [dict get $values $p]]]
  }
  if {[catch { expr $text } got] || ![string is double -strict $got]} { fail "the width of $port isn't known: $it" }
  return [expr {int(ceil($got))}]
}

# The bits of an expression, from the lowest on.
proc low {net from to} { expr {$from == $to ? $net : $to == 1 ? "$net\[0\]" : "$net\[[expr {$to - 1}]:0\]"} }

# The bits of data as an interface has them: one of the widths that there are, and as wide as the host's words where it is of native alignment.
proc wide {bits is_native native} {
  if {$is_native && $bits < $native} { return $native }
  foreach it {8 16 32 64 128} { if {$bits <= $it} { return $it } }
  return $bits
}

proc has_role {interface wanted} {
  global of
  dict for {port it} [dict get $of($interface) ports] {
    if {[string tolower [lindex $it 0]] in [list $wanted ${wanted}_n]} { return 1 }
  }
  return 0
}

# A port as it is, or with other bits or turned.
proc put_port {interface port role direction bits shown is_low} {
  set not [expr {$is_low ? "~" : ""}]
  put add_interface_port $interface $port $role $direction $shown
  if {$bits == $shown && !$is_low} return
  set net "$interface\$$role"
  if {[string equal -nocase $direction output]} {
    puts "#top output $port $bits"
    puts "#top $net = [expr {$bits == $shown ? "$not$port" : "{[expr {$shown - $bits}]'d0, $not$port}"}]"
  } else {
    puts "#top $port = $not[low $net $shown $bits]"
  }
}

proc put_avalon_port {interface port role direction bits} {
  global of roles native
  set is_host [expr {[dict get $of($interface) direction] in {start master host source}}]
  set is_input [string equal -nocase $direction input]
  set is_native [expr {!$is_host && [string toupper [property $interface addressAlignment]] in {NATIVE 1}}]
  set asks [join [lmap it {read write} { if {![has_role $interface $it] && !($it eq "read" && [has_role $interface readdata])} continue; set it "$interface\$$it" }] " | "]
  set plain [regsub {_n$} $role {}]
  set is_low [expr {$plain ne $role}]
  switch -- $plain {
    chipselect { puts "#top $port = [expr {$is_low ? "~($asks)" : $asks}]"; return }
    begintransfer {
      if {$is_low} { fail "$port: begintransfer_n isn't made" }
      puts "#top begins $port $interface"
      return
    }
    clken - outputenable { puts "#top $port = 1'b[expr {$is_low ? 0 : 1}]"; return }
    dataavailable - readyfordata - endofpacket { puts "#top open $port"; return }
    debugaccess - beginbursttransfer {
      if {!$is_input} { put_port $interface $port $plain $direction $bits $bits 0; return }
      if {$plain eq "beginbursttransfer"} { puts stderr "flatten.tcl: $port is tied to 0: beginbursttransfer isn't made" }
      puts "#top $port = 1'b0"
      return
    }
    lock - writeresponsevalid {
      left_out "$port of $interface ($plain)"
      puts [expr {$is_input ? "#top $port = 1'b0" : "#top open $port"}]
      return
    }
  }
  if {$plain ni $roles(avalon)} {
    left_out "$port of $interface ($role)"
    puts [expr {$is_input ? "#top $port = $bits'd0" : "#top open $port"}]
    return
  }
  set shown $bits
  if {$plain in {readdata writedata}} { set shown [wide $bits $is_native $native] }
  if {$plain eq "byteenable"} { set shown [expr {[wide [expr {8 * $bits}] $is_native $native] / 8}] }
  put_port $interface $port $plain $direction $bits $shown $is_low
}

puts "# written by flatten.tcl from [file tail $file][join [lmap {k v} $given { string cat { } $k = $v }] {}]"
foreach it $noted { put {*}$it }
if {$name eq {}} { fail "$file states no NAME" }
put set_module_property NAME $name
if {$module ni [list {} $name]} {
  put add_fileset synthesis QUARTUS_SYNTH {}
  put set_fileset_property synthesis TOP_LEVEL $module
}
dict for {p -} $hdl {
  put add_parameter $p [dict get $types $p] [number_of [dict get $values $p]]
  put set_parameter_property $p HDL_PARAMETER true
}
foreach interface $interfaces {
  set kind [dict get $of($interface) kind]
  set is_left [expr {$kind ni $kinds || [string is false -strict [property $interface ENABLED true]]}]
  if {!$is_left} {
    put add_interface $interface $kind [dict get $of($interface) direction]
    dict for {key value} [dict get $of($interface) properties] {
      set key_low [string tolower $key]
      if {$key_low eq "addressalignment" || $key_low eq "enabled"} continue
      if {$kind in {avalon avalon_streaming} && $key_low ni $properties($kind)} { left_out "set_interface_property $interface $key $value"; continue }
      put set_interface_property $interface $key $value
    }
  }
  set has_read [has_role $interface read]
  dict for {port it} [dict get $of($interface) ports] {
    lassign $it role direction
    set role [string tolower $role]
    set bits [bits $port $width_of($port)]
    set is_input [string equal -nocase $direction input]
    if {$bits == 0} { puts "#top without $port"; continue }
    if {[info exists ended($port)] || $is_left} {
      set value [expr {[info exists ended($port)] ? $ended($port) : 0}]
      puts [expr {$is_input ? "#top $port = $bits'd$value" : "#top open $port"}]
      continue
    }
    if {$kind eq "avalon"} {
      if {$role in {readdata readdata_n} && !$has_read} {
        put add_interface_port $interface ${port}_read read Input 1
        puts "#top without ${port}_read"
        set has_read 1
      }
      put_avalon_port $interface $port $role $direction $bits
    } elseif {$kind eq "avalon_streaming" && $role ni $roles(avalon_streaming)} {
      left_out "$port of $interface ($role)"
      puts [expr {$is_input ? "#top $port = $bits'd0" : "#top open $port"}]
    } else {
      put add_interface_port $interface $port $role $direction $bits
    }
  }
}
