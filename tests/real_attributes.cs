// Prints what Mono.Cecil reads of the attributes of each type of an assembly, a line for each attribute: the type's token, the
// number of the attribute among its own, and the value as `cecil run` prints it (docs/JOBS.md). `?` stands where Mono.Cecil
// can not tell it.
using System;
using System.Collections.Generic;
using System.IO;
using System.Linq;
using System.Text;
using Mono.Cecil;

static class Page
{
    static readonly Dictionary<MetadataType, string> Names = new Dictionary<MetadataType, string> {
        { MetadataType.Boolean, "bool" }, { MetadataType.Char, "char" }, { MetadataType.SByte, "i1" }, { MetadataType.Byte, "u1" },
        { MetadataType.Int16, "i2" }, { MetadataType.UInt16, "u2" }, { MetadataType.Int32, "i4" }, { MetadataType.UInt32, "u4" },
        { MetadataType.Int64, "i8" }, { MetadataType.UInt64, "u8" }, { MetadataType.Single, "r4" }, { MetadataType.Double, "r8" } };

    static string Escaped(string text)
    {
        var all = new StringBuilder();
        foreach (var b in Encoding.UTF8.GetBytes(text)) {
            if (b == '"' || b == '\\') all.Append('\\').Append((char) b);
            else if (b >= 0x20 && b <= 0x7e) all.Append((char) b);
            else all.Append("\\x" + b.ToString("x2"));
        }
        return all.ToString();
    }

    static string Bits(object value)
    {
        if (value is bool) return (bool) value ? "bool:01" : "bool:00";
        if (value is char) return "char:" + ((int) (char) value).ToString("x4");
        if (value is sbyte) return "i1:" + ((sbyte) value).ToString("x2");
        if (value is byte) return "u1:" + ((byte) value).ToString("x2");
        if (value is short) return "i2:" + ((short) value).ToString("x4");
        if (value is ushort) return "u2:" + ((ushort) value).ToString("x4");
        if (value is int) return "i4:" + ((int) value).ToString("x8");
        if (value is uint) return "u4:" + ((uint) value).ToString("x8");
        if (value is long) return "i8:" + ((long) value).ToString("x16");
        if (value is ulong) return "u8:" + ((ulong) value).ToString("x16");
        if (value is float) return "r4:" + BitConverter.ToUInt32(BitConverter.GetBytes((float) value), 0).ToString("x8");
        return "r8:" + BitConverter.DoubleToInt64Bits((double) value).ToString("x16");
    }

    static string Told(CustomAttributeArgument argument)
    {
        if (argument.Value is CustomAttributeArgument) return "box " + Told((CustomAttributeArgument) argument.Value);
        if (argument.Value == null) return "null";
        if (argument.Value is CustomAttributeArgument[])
            return "[" + string.Join(",", ((CustomAttributeArgument[]) argument.Value).Select(Told)) + "]";
        if (argument.Value is string) return "\"" + Escaped((string) argument.Value) + "\"";
        if (argument.Value is TypeReference) return "type \"" + Escaped(((TypeReference) argument.Value).FullName) + "\"";
        if (Names.ContainsKey(argument.Type.MetadataType)) return Bits(argument.Value);
        return "enum \"" + Escaped(argument.Type.FullName) + "\" " + Bits(argument.Value);
    }

    // named arguments in the order of the kinds, as Mono.Cecil keeps them: the fields, and then the properties
    static string Told(CustomAttribute attribute)
    {
        var all = "(" + string.Join(",", attribute.ConstructorArguments.Select(Told)) + ")";
        foreach (var field in attribute.Fields) all += " field " + Escaped(field.Name) + "=" + Told(field.Argument);
        foreach (var property in attribute.Properties) all += " property " + Escaped(property.Name) + "=" + Told(property.Argument);
        return all;
    }

    static void Main(string[] words)
    {
        var resolver = new DefaultAssemblyResolver();
        resolver.AddSearchDirectory(Path.GetDirectoryName(Path.GetFullPath(words[0])));
        var module = ModuleDefinition.ReadModule(words[0], new ReaderParameters { AssemblyResolver = resolver });
        foreach (var type in module.GetTypes()) {
            var number = 0;
            foreach (var attribute in type.CustomAttributes) {
                string told;
                try { told = Told(attribute); } catch (Exception) { told = "?"; }
                Console.WriteLine(type.MetadataToken.ToInt32().ToString("x8") + " " + number + " " + told);
                number++;
            }
        }
    }
}
