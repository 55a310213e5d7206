"""The launcher: what an editor starts as its debug adapter for Java. It stands between the editor and the bridge.

- wire: messages of the Debug Adapter Protocol over streams of bytes
- session: one session of an editor, request by request
- bridge: the bridge's process and the link to it
- program: the Java program, as a `launch` names it
- keeper: ends all that was started, also where the launcher itself is killed
- lists: what the editor has set of breakpoints, for a second bridge
- sources: where a frame's file stands
- filters: steps that end in the library
- views: what is shown of values
- elements: what the collections of java.util hold
- decimals: fractions as Java writes them
"""
