<?xml version="1.0" encoding="UTF-8"?>
<!-- Prints elements `witness`: how many there are, and then each as lines of ESIS. A stylesheet that imports this one
     makes them of its document, in the mode `witnesses`, and `l:attribute` for an attribute that stands by itself. -->
<xsl:stylesheet version="1.0" xmlns:xsl="http://www.w3.org/1999/XSL/Transform" xmlns:exsl="http://exslt.org/common"
    xmlns:str="http://exslt.org/strings" xmlns:l="lines">
  <xsl:output method="text" encoding="UTF-8"/>

  <xsl:template match="/">
    <xsl:variable name="answer">
      <xsl:apply-templates select="/" mode="witnesses"/>
    </xsl:variable>
    <xsl:value-of select="concat(count(exsl:node-set($answer)/witness), '&#10;')"/>
    <xsl:apply-templates select="exsl:node-set($answer)/witness" mode="lines"/>
  </xsl:template>

  <xsl:template match="*" mode="lines">
    <xsl:param name="name" select="name()"/>
    <xsl:apply-templates select="@*" mode="lines"/>
    <xsl:value-of select="concat('(', $name, '&#10;')"/>
    <xsl:apply-templates select="* | text()" mode="lines"/>
    <xsl:value-of select="concat(')', $name, '&#10;')"/>
  </xsl:template>

  <xsl:template match="l:attribute" mode="lines">
    <xsl:value-of select="concat('(@', @name, '&#10;')"/>
    <xsl:apply-templates select="text()" mode="lines"/>
    <xsl:value-of select="concat(')@', @name, '&#10;')"/>
  </xsl:template>

  <xsl:template match="@*" mode="lines">
    <xsl:value-of select="concat('A', name(), ' CDATA ')"/>
    <xsl:call-template name="escaped"/>
    <xsl:text>&#10;</xsl:text>
  </xsl:template>

  <!-- Texts side by side are one. -->
  <xsl:template match="text()" mode="lines">
    <xsl:if test="not(preceding-sibling::node()[self::* or self::text()][1][self::text()])">-</xsl:if>
    <xsl:call-template name="escaped"/>
    <xsl:if test="not(following-sibling::node()[self::* or self::text()][1][self::text()])">
      <xsl:text>&#10;</xsl:text>
    </xsl:if>
  </xsl:template>

  <xsl:template name="escaped">
    <xsl:variable name="slashes" select="str:replace(., '\', '\\')"/>
    <xsl:variable name="lines" select="str:replace($slashes, '&#10;', '\n')"/>
    <xsl:value-of select="str:replace($lines, '&#9;', '\011')"/>
  </xsl:template>

  <!-- An attribute that stands by itself, with its value. -->
  <xsl:template match="@*" mode="shown">
    <l:attribute name="{name()}"><xsl:value-of select="."/></l:attribute>
  </xsl:template>
</xsl:stylesheet>
